@t = global i64 0
@x = global i64 0
define ptr @f(ptr %z) {
  store i64 5, ptr @x
  %1 = call i32 @putchar(i32 65)
  ret ptr null
}
define i32 @main() {
  %c = call i32 @pthread_create(ptr @t, ptr null, ptr @f, ptr null)
  %v = load i64, ptr @x
  call void @pg_out(i64 %v)
  ret i32 0
}
