;; The primes below 150,000, counted by a sieve in memory.
(module
  (memory 3)
  (func (export "run") (result i32) (local $below i32) (local $i i32) (local $j i32) (local $count i32)
    (local.set $below (i32.const 150000))
    (local.set $i (i32.const 2))
    (block $done
      (loop $next
        (br_if $done (i32.ge_u (local.get $i) (local.get $below)))
        (if (i32.eqz (i32.load8_u (local.get $i)))
          (then
            (local.set $count (i32.add (local.get $count) (i32.const 1)))
            (local.set $j (i32.add (local.get $i) (local.get $i)))
            (block $end
              (loop $strike
                (br_if $end (i32.ge_u (local.get $j) (local.get $below)))
                (i32.store8 (local.get $j) (i32.const 1))
                (local.set $j (i32.add (local.get $j) (local.get $i)))
                (br $strike)))))
        (local.set $i (i32.add (local.get $i) (i32.const 1)))
        (br $next)))
    (local.get $count)))
