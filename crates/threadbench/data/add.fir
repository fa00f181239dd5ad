circuit Add :
  module Add :
    input a : UInt<8>
    input b : UInt<8>
    output out : UInt<9>
    connect out, add(a, b)
