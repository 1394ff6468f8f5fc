;; The sum of two constants.
(module
  (func (export "f") (result i32)
    (i32.add (i32.const 2) (i32.const 3))))
