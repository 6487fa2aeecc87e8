@m = global [5 x i64] zeroinitializer
define i32 @main() {
  %1 = call i32 @pthread_mutex_trylock(ptr @m)
  %2 = call i32 @pthread_mutex_trylock(ptr @m)
  %3 = sext i32 %1 to i64
  %4 = sext i32 %2 to i64
  call void @pg_out(i64 %3)
  call void @pg_out(i64 %4)
  ret i32 0
}
