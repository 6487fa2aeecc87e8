@m = global [5 x i64] zeroinitializer
@t = global i64 0
@x = global i64 0
define ptr @f(ptr %z) {
  %l = call i32 @pthread_mutex_lock(ptr @m)
  %a = load i64, ptr @x
  %n = call i64 @pg_in(i64 0)
  %b = add i64 %a, %n
  store i64 %b, ptr @x
  %u = call i32 @pthread_mutex_unlock(ptr @m)
  ret ptr null
}
define i32 @main() {
  %c = call i32 @pthread_create(ptr @t, ptr null, ptr @f, ptr null)
  %l = call i32 @pthread_mutex_lock(ptr @m)
  %a = load i64, ptr @x
  %b = add i64 %a, 1
  store i64 %b, ptr @x
  %u = call i32 @pthread_mutex_unlock(ptr @m)
  %h = load i64, ptr @t
  %j = call i32 @pthread_join(i64 %h, ptr null)
  %v = load i64, ptr @x
  call void @pg_out(i64 %v)
  ret i32 0
}
