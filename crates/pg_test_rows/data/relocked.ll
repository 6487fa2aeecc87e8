@m = global [5 x i64] zeroinitializer
define i32 @main() {
  %a = call i32 @pthread_mutex_lock(ptr @m)
  %b = call i32 @pthread_mutex_lock(ptr @m)
  ret i32 0
}
