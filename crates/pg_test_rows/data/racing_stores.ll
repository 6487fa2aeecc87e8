@x = global i64 0
@t = global i64 0
define ptr @f(ptr %z) {
entry:
  %n = call i64 @pg_in(i64 0)
  %q = alloca i64
  store i64 0, ptr %q
  br label %c
c:
  %i = load i64, ptr %q
  %d = icmp slt i64 %i, %n
  br i1 %d, label %b, label %e
b:
  %j = add i64 %i, 1
  store i64 %j, ptr %q
  br label %c
e:
  store i64 %i, ptr @x
  ret ptr null
}
define i32 @main() {
entry:
  %1 = call i32 @pthread_create(ptr @t, ptr null, ptr @f, ptr null)
  br label %w
w:
  %k = phi i64 [ 0, %entry ], [ %m, %w ]
  %m = add i64 %k, 1
  %c = icmp slt i64 %m, 3
  br i1 %c, label %w, label %o
o:
  store i64 100, ptr @x
  %h = load i64, ptr @t
  %2 = call i32 @pthread_join(i64 %h, ptr null)
  %v = load i64, ptr @x
  call void @pg_out(i64 %v)
  ret i32 0
}
