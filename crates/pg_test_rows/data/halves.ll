@w = global [2 x i32] zeroinitializer
@t = global i64 0
define ptr @f(ptr %x) {
  %p = getelementptr [2 x i32], ptr @w, i64 0, i64 1
  store i32 7, ptr %p
  ret ptr null
}
define i32 @main() {
  %1 = call i32 @pthread_create(ptr @t, ptr null, ptr @f, ptr null)
  store i32 5, ptr @w
  %h = load i64, ptr @t
  %2 = call i32 @pthread_join(i64 %h, ptr null)
  %v = load i64, ptr @w
  call void @pg_out(i64 %v)
  ret i32 0
}
