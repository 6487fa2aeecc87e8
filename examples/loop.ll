; A loop of loads, adds and stores: 400,000 steps.
@sum = global i64 0

define i32 @main() {
entry:
  br label %loop
loop:
  %i = phi i64 [ 0, %entry ], [ %next, %loop ]
  %old = load i64, ptr @sum
  %new = add i64 %old, %i
  store i64 %new, ptr @sum
  %next = add i64 %i, 1
  %more = icmp slt i64 %next, 66666
  br i1 %more, label %loop, label %done
done:
  ret i32 0
}
