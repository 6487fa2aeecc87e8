@m = global [5 x i64] zeroinitializer
@c = global [6 x i64] zeroinitializer
@t = global i64 0
define ptr @w(ptr %x) {
entry:
  %1 = call i32 @pthread_mutex_lock(ptr @m)
  %2 = call i32 @pthread_cond_wait(ptr @c, ptr @m)
  %3 = call i32 @pthread_mutex_unlock(ptr @m)
  ret ptr null
}
define ptr @h(ptr %x) {
entry:
  %1 = call i32 @pthread_mutex_lock(ptr @m)
  %2 = call i32 @pthread_cond_broadcast(ptr @c)
  %3 = call i32 @pthread_mutex_unlock(ptr @m)
  ret ptr null
}
define i32 @main() {
entry:
  %1 = call i32 @pthread_create(ptr @t, ptr null, ptr @w, ptr null)
  %2 = call i32 @pthread_create(ptr @t, ptr null, ptr @h, ptr null)
  %3 = call i32 @pthread_join(i64 1, ptr null)
  %4 = call i32 @pthread_join(i64 2, ptr null)
  ret i32 0
}
