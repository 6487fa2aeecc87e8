@a = global [2 x i64] zeroinitializer
define i32 @main() {
  %p = getelementptr [2 x i64], ptr @a, i64 0, i64 2
  %q = getelementptr [2 x i64], ptr @a, i64 0, i64 1
  %c = icmp ugt ptr %p, %q
  %z = zext i1 %c to i64
  call void @pg_out(i64 %z)
  %v = load i64, ptr %p
  ret i32 0
}
