@b = global [4 x i64] zeroinitializer
@t = global i64 0
@r = global i64 0
@s = global i64 0
define ptr @w(ptr %x) {
entry:
  %1 = call i32 @pthread_barrier_wait(ptr @b)
  %2 = sext i32 %1 to i64
  %3 = inttoptr i64 %2 to ptr
  ret ptr %3
}
define i32 @main() {
entry:
  %1 = call i32 @pthread_barrier_init(ptr @b, ptr null, i32 3)
  %2 = call i32 @pthread_create(ptr @t, ptr null, ptr @w, ptr null)
  %3 = call i32 @pthread_create(ptr @t, ptr null, ptr @w, ptr null)
  %4 = call i32 @pthread_barrier_wait(ptr @b)
  %5 = call i32 @pthread_join(i64 1, ptr @r)
  %6 = call i32 @pthread_join(i64 2, ptr @s)
  %7 = sext i32 %4 to i64
  call void @pg_out(i64 %7)
  %8 = load i64, ptr @r
  call void @pg_out(i64 %8)
  %9 = load i64, ptr @s
  call void @pg_out(i64 %9)
  ret i32 0
}
