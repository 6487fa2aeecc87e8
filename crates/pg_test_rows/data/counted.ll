define i32 @main() {
entry:
  %n = call i64 @pg_in(i64 0)
  br label %c
c:
  %i = phi i64 [ 0, %entry ], [ %j, %b ]
  %d = icmp slt i64 %i, %n
  br i1 %d, label %b, label %e
b:
  call void @pg_out(i64 %i)
  %j = add i64 %i, 1
  br label %c
e:
  ret i32 0
}
