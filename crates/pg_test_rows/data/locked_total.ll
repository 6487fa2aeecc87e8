@total = global i64 0
@m = global [5 x i64] zeroinitializer
@t = global [2 x i64] zeroinitializer
define ptr @work(ptr %x) {
entry:
  %s = alloca i64
  %i = alloca i64
  store i64 0, ptr %s
  store i64 0, ptr %i
  br label %cond
cond:
  %a = load i64, ptr %i
  %n = call i64 @pg_in_len()
  %c = icmp slt i64 %a, %n
  br i1 %c, label %body, label %done
body:
  %v = call i64 @pg_in(i64 %a)
  %u = load i64, ptr %s
  %w = add i64 %u, %v
  store i64 %w, ptr %s
  %b = add i64 %a, 1
  store i64 %b, ptr %i
  br label %cond
done:
  %l = call i32 @pthread_mutex_lock(ptr @m)
  %g = load i64, ptr @total
  %r = load i64, ptr %s
  %h = add i64 %g, %r
  store i64 %h, ptr @total
  %k = call i32 @pthread_mutex_unlock(ptr @m)
  ret ptr null
}
define i32 @main() {
entry:
  %p = getelementptr [2 x i64], ptr @t, i64 0, i64 1
  %1 = call i32 @pthread_create(ptr @t, ptr null, ptr @work, ptr null)
  %2 = call i32 @pthread_create(ptr %p, ptr null, ptr @work, ptr null)
  %a = load i64, ptr @t
  %b = load i64, ptr %p
  %3 = call i32 @pthread_join(i64 %a, ptr null)
  %4 = call i32 @pthread_join(i64 %b, ptr null)
  %s = load i64, ptr @total
  call void @pg_out(i64 %s)
  ret i32 0
}
