;; A loop of 900,000 turns, each of nine instructions.
(module
  (func (export "run") (result i32) (local $turns i32) (local $sum i32)
    (local.set $turns (i32.const 900000))
    (loop $again
      (local.set $sum (i32.add (local.get $sum) (local.get $turns)))
      (br_if $again (local.tee $turns (i32.sub (local.get $turns) (i32.const 1)))))
    (local.get $sum)))
