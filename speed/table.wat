;; A loop of 200,000 turns, each with a `br_table` of 256 labels at an index that goes through all of them. It counts the even ones.
(module
  (func (export "run") (result i32) (local $turns i32) (local $count i32)
    (local.set $turns (i32.const 200000))
    (loop $again
      (block $next
        (block $even
          (br_table
            $even $next $even $next $even $next $even $next $even $next $even $next $even $next $even $next $even
            $next $even $next $even $next $even $next $even $next $even $next $even $next $even $next $even $next
            $even $next $even $next $even $next $even $next $even $next $even $next $even $next $even $next $even
            $next $even $next $even $next $even $next $even $next $even $next $even $next $even $next $even $next
            $even $next $even $next $even $next $even $next $even $next $even $next $even $next $even $next $even
            $next $even $next $even $next $even $next $even $next $even $next $even $next $even $next $even $next
            $even $next $even $next $even $next $even $next $even $next $even $next $even $next $even $next $even
            $next $even $next $even $next $even $next $even $next $even $next $even $next $even $next $even $next
            $even $next $even $next $even $next $even $next $even $next $even $next $even $next $even $next $even
            $next $even $next $even $next $even $next $even $next $even $next $even $next $even $next $even $next
            $even $next $even $next $even $next $even $next $even $next $even $next $even $next $even $next $even
            $next $even $next $even $next $even $next $even $next $even $next $even $next $even $next $even $next
            $even $next $even $next $even $next $even $next $even $next $even $next $even $next $even $next $even
            $next $even $next $even $next $even $next $even $next $even $next $even $next $even $next $even $next
            $even $next $even $next $even $next $even $next $even $next $even $next $even $next $even $next $even
            $next
            $next (i32.and (local.get $turns) (i32.const 255))))
        (local.set $count (i32.add (local.get $count) (i32.const 1))))
      (br_if $again (local.tee $turns (i32.sub (local.get $turns) (i32.const 1)))))
    (local.get $count)))
