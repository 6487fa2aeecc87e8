@b = global [4 x i64] zeroinitializer
define i32 @main() {
  %1 = call i32 @pthread_barrier_init(ptr @b, ptr null, i32 0)
  %2 = sext i32 %1 to i64
  call void @pg_out(i64 %2)
  ret i32 0
}
