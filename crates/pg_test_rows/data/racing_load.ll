@t = global i64 0
@x = global i64 0
define ptr @f(ptr %z) {
  store i64 1, ptr @x
  ret ptr null
}
define i32 @main() {
  %c = call i32 @pthread_create(ptr @t, ptr null, ptr @f, ptr null)
  %v = load i64, ptr @x
  %d = icmp ne i64 %v, 0
  br i1 %d, label %a, label %b
a:
  call void @pg_out(i64 %v)
  br label %b
b:
  %j = call i32 @pthread_join(i64 1, ptr null)
  ret i32 0
}
