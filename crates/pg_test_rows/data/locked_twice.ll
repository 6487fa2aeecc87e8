@m = global [5 x i64] zeroinitializer
define i32 @main() {
  %1 = call i32 @pthread_mutex_lock(ptr @m)
  %2 = call i32 @pthread_mutex_lock(ptr @m)
  ret i32 0
}
