@a = global [16 x i64] zeroinitializer
@t = global i64 0
define ptr @f(ptr %x) {
entry:
  %o = ptrtoint ptr %x to i64
  %n = call i64 @pg_in(i64 0)
  br label %c
c:
  %i = phi i64 [ 0, %entry ], [ %j, %b ]
  %d = icmp slt i64 %i, %n
  br i1 %d, label %b, label %e
b:
  %k = add i64 %o, %i
  %p = getelementptr [16 x i64], ptr @a, i64 0, i64 %k
  store i64 %n, ptr %p
  %j = add i64 %i, 1
  br label %c
e:
  ret ptr null
}
define i32 @main() {
entry:
  %q = inttoptr i64 8 to ptr
  %1 = call i32 @pthread_create(ptr @t, ptr null, ptr @f, ptr null)
  %2 = call i32 @pthread_create(ptr @t, ptr null, ptr @f, ptr %q)
  %3 = call i32 @pthread_join(i64 1, ptr null)
  %4 = call i32 @pthread_join(i64 2, ptr null)
  %r = getelementptr [16 x i64], ptr @a, i64 0, i64 8
  %u = load i64, ptr @a
  %v = load i64, ptr %r
  %s = add i64 %u, %v
  call void @pg_out(i64 %s)
  ret i32 0
}
