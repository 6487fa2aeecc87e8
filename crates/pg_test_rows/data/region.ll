define i32 @main() {
  %p = call ptr @malloc(i64 262144)
  %q = call ptr @malloc(i64 8)
  %c = icmp eq ptr %p, null
  %d = icmp eq ptr %q, null
  %e = zext i1 %c to i64
  %f = zext i1 %d to i64
  call void @pg_out(i64 %e)
  call void @pg_out(i64 %f)
  ret i32 0
}
