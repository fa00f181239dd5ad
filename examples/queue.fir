FIRRTL version 3.3.0
circuit Q2 :
  module Q2 : @[src/main/scala/Q2.scala 7:7]
    input clock : Clock @[src/main/scala/Q2.scala 7:7]
    input reset : UInt<1> @[src/main/scala/Q2.scala 7:7]
    output io : { flip enq : { flip ready : UInt<1>, valid : UInt<1>, bits : UInt<8>}, deq : { flip ready : UInt<1>, valid : UInt<1>, bits : UInt<8>}} @[src/main/scala/Q2.scala 8:14]

    regreset count : UInt<2>, clock, reset, UInt<2>(0h0) @[src/main/scala/Q2.scala 9:22]
    reg r0 : UInt<8>, clock
    reg r1 : UInt<8>, clock
    node full = eq(count, UInt<2>(0h2))
    node empty = eq(count, UInt<1>(0h0))
    node do_enq = and(io.enq.ready, io.enq.valid)
    node do_deq = and(io.deq.ready, io.deq.valid)
    connect io.enq.ready, eq(full, UInt<1>(0h0))
    connect io.deq.valid, eq(empty, UInt<1>(0h0))
    connect io.deq.bits, r0
    when do_deq :
      connect r0, r1
    when do_enq :
      node here = eq(count, do_deq)
      when here :
        connect r0, io.enq.bits
      else :
        connect r1, io.enq.bits
    node _up_T = add(count, do_enq)
    node up = tail(_up_T, 1)
    node _next_T = sub(up, do_deq)
    node next = tail(_next_T, 1)
    connect count, next
