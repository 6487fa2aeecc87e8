@t = global i64 0
@u = global i64 0
@r = global i64 0
define ptr @f(ptr %x) {
entry:
  %n = call i64 @pg_in_len()
  br label %c
c:
  %i = phi i64 [ 0, %entry ], [ %j, %b ]
  %s = phi i64 [ 0, %entry ], [ %r, %b ]
  %d = icmp slt i64 %i, %n
  br i1 %d, label %b, label %e
b:
  %v = call i64 @pg_in(i64 %i)
  %q = sdiv i64 100, %v
  %r = add i64 %s, %q
  %j = add i64 %i, 1
  br label %c
e:
  %y = inttoptr i64 %s to ptr
  ret ptr %y
}
define i32 @main() {
entry:
  call void @pg_out(i64 7)
  %1 = call i32 @pthread_create(ptr @t, ptr null, ptr @f, ptr null)
  %2 = call i32 @pthread_create(ptr @u, ptr null, ptr @g, ptr null)
  %a = load i64, ptr @t
  %b = load i64, ptr @u
  %3 = call i32 @pthread_join(i64 %a, ptr @r)
  %4 = call i32 @pthread_join(i64 %b, ptr null)
  %z = load i64, ptr @r
  call void @pg_out(i64 %z)
  ret i32 0
}
define ptr @g(ptr %x) {
  %v = call i64 @pg_in(i64 1)
  %q = sdiv i64 1, %v
  ret ptr null
}
