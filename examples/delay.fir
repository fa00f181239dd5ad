circuit Delay :
  module Delay :
    input clock : Clock
    input a : UInt<8>
    output out : UInt<8>
    reg r : UInt<8>, clock
    connect r, a
    connect out, r
