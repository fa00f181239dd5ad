circuit L :
  module L :
    input a : UInt<1>
    output out : UInt<1>
    wire w : UInt<1>
    connect w, xor(out, a)
    connect out, w
