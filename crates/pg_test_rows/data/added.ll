@a = global [4 x i64] zeroinitializer
@t = global i64 0
define void @add(ptr %p, i64 %v) {
  %o = load i64, ptr %p
  %n = add i64 %o, %v
  store i64 %n, ptr %p
  ret void
}
define ptr @f(ptr %x) {
entry:
  %n = call i64 @pg_in_len()
  br label %c
c:
  %i = phi i64 [ 0, %entry ], [ %j, %b ]
  %d = icmp slt i64 %i, %n
  br i1 %d, label %b, label %e
b:
  %v = call i64 @pg_in(i64 %i)
  call void @add(ptr @a, i64 %v)
  %j = add i64 %i, 1
  br label %c
e:
  ret ptr null
}
define i32 @main() {
  %1 = call i32 @pthread_create(ptr @t, ptr null, ptr @f, ptr null)
  %2 = call i32 @pthread_join(i64 1, ptr null)
  %s = load i64, ptr @a
  call void @pg_out(i64 %s)
  ret i32 0
}
