declare i64 @pg_in(i64)
declare i64 @pg_in_len()
declare void @pg_out(i64)
declare i32 @putchar(i32)
declare ptr @malloc(i64)
declare void @free(ptr)
declare i32 @pthread_create(ptr, ptr, ptr, ptr)
declare i32 @pthread_join(i64, ptr)
declare void @pthread_exit(ptr)
declare i32 @pthread_mutex_init(ptr, ptr)
declare i32 @pthread_mutex_lock(ptr)
declare i32 @pthread_mutex_trylock(ptr)
declare i32 @pthread_mutex_unlock(ptr)
declare i32 @pthread_mutex_destroy(ptr)
declare i32 @pthread_cond_init(ptr, ptr)
declare i32 @pthread_cond_wait(ptr, ptr)
declare i32 @pthread_cond_signal(ptr)
declare i32 @pthread_cond_broadcast(ptr)
declare i32 @pthread_cond_destroy(ptr)
declare i32 @pthread_barrier_init(ptr, ptr, i32)
declare i32 @pthread_barrier_wait(ptr)
declare i32 @pthread_barrier_destroy(ptr)
define i32 @main() {
  %a = call i64 @pg_in(i64 0)
  %b = call i64 @pg_in(i64 1)
  %c = add i64 %a, %b
  call void @pg_out(i64 %c)
  ret i32 0
}
define i32 @main() {
  %a = add nsw i8 127, 1
  %b = sext i8 %a to i64
  call void @pg_out(i64 %b)
  ret i32 0
}
define i32 @main() {
  %a = call i64 @pg_in(i64 0)
  %b = call i64 @pg_in(i64 1)
  %c = sdiv i64 %a, %b
  call void @pg_out(i64 %c)
  ret i32 0
}
define i32 @main() {
  %a = shl i32 1, 32
  %b = sext i32 %a to i64
  call void @pg_out(i64 %b)
  %c = ashr i32 -8, 40
  %d = sext i32 %c to i64
  call void @pg_out(i64 %d)
  ret i32 0
}
@a = global [2 x i64] zeroinitializer
define i32 @main() {
  %p = getelementptr [2 x i64], ptr @a, i64 0, i64 2
  %q = getelementptr [2 x i64], ptr @a, i64 0, i64 1
  %c = icmp ugt ptr %p, %q
  %z = zext i1 %c to i64
  call void @pg_out(i64 %z)
  %v = load i64, ptr %p
  ret i32 0
}
@w = global [2 x i32] zeroinitializer
@t = global i64 0
define ptr @f(ptr %x) {
  %p = getelementptr [2 x i32], ptr @w, i64 0, i64 1
  store i32 7, ptr %p
  ret ptr null
}
define i32 @main() {
  %1 = call i32 @pthread_create(ptr @t, ptr null, ptr @f, ptr null)
  store i32 5, ptr @w
  %h = load i64, ptr @t
  %2 = call i32 @pthread_join(i64 %h, ptr null)
  %v = load i64, ptr @w
  call void @pg_out(i64 %v)
  ret i32 0
}
@m = global [5 x i64] zeroinitializer
define i32 @main() {
  %1 = call i32 @pthread_mutex_lock(ptr @m)
  %2 = call i32 @pthread_mutex_lock(ptr @m)
  ret i32 0
}
@total = global i64 0
@m = global [5 x i64] zeroinitializer
@t = global [2 x i64] zeroinitializer
define ptr @work(ptr %x) {
entry:
  %s = alloca i64
  %i = alloca i64
  store i64 0, ptr %s
  store i64 0, ptr %i
  br label %cond
cond:
  %a = load i64, ptr %i
  %n = call i64 @pg_in_len()
  %c = icmp slt i64 %a, %n
  br i1 %c, label %body, label %done
body:
  %v = call i64 @pg_in(i64 %a)
  %u = load i64, ptr %s
  %w = add i64 %u, %v
  store i64 %w, ptr %s
  %b = add i64 %a, 1
  store i64 %b, ptr %i
  br label %cond
done:
  %l = call i32 @pthread_mutex_lock(ptr @m)
  %g = load i64, ptr @total
  %r = load i64, ptr %s
  %h = add i64 %g, %r
  store i64 %h, ptr @total
  %k = call i32 @pthread_mutex_unlock(ptr @m)
  ret ptr null
}
define i32 @main() {
entry:
  %p = getelementptr [2 x i64], ptr @t, i64 0, i64 1
  %1 = call i32 @pthread_create(ptr @t, ptr null, ptr @work, ptr null)
  %2 = call i32 @pthread_create(ptr %p, ptr null, ptr @work, ptr null)
  %a = load i64, ptr @t
  %b = load i64, ptr %p
  %3 = call i32 @pthread_join(i64 %a, ptr null)
  %4 = call i32 @pthread_join(i64 %b, ptr null)
  %s = load i64, ptr @total
  call void @pg_out(i64 %s)
  ret i32 0
}
@x = global i64 0
@t = global i64 0
define ptr @f(ptr %z) {
entry:
  %n = call i64 @pg_in(i64 0)
  %q = alloca i64
  store i64 0, ptr %q
  br label %c
c:
  %i = load i64, ptr %q
  %d = icmp slt i64 %i, %n
  br i1 %d, label %b, label %e
b:
  %j = add i64 %i, 1
  store i64 %j, ptr %q
  br label %c
e:
  store i64 %i, ptr @x
  ret ptr null
}
define i32 @main() {
entry:
  %1 = call i32 @pthread_create(ptr @t, ptr null, ptr @f, ptr null)
  br label %w
w:
  %k = phi i64 [ 0, %entry ], [ %m, %w ]
  %m = add i64 %k, 1
  %c = icmp slt i64 %m, 3
  br i1 %c, label %w, label %o
o:
  store i64 100, ptr @x
  %h = load i64, ptr @t
  %2 = call i32 @pthread_join(i64 %h, ptr null)
  %v = load i64, ptr @x
  call void @pg_out(i64 %v)
  ret i32 0
}
@a = global [16 x i64] zeroinitializer
@t = global i64 0
define ptr @f(ptr %x) {
entry:
  %o = ptrtoint ptr %x to i64
  %n = call i64 @pg_in(i64 0)
  br label %c
c:
  %i = phi i64 [ 0, %entry ], [ %j, %b ]
  %d = icmp slt i64 %i, %n
  br i1 %d, label %b, label %e
b:
  %k = add i64 %o, %i
  %p = getelementptr [16 x i64], ptr @a, i64 0, i64 %k
  store i64 %n, ptr %p
  %j = add i64 %i, 1
  br label %c
e:
  ret ptr null
}
define i32 @main() {
entry:
  %q = inttoptr i64 8 to ptr
  %1 = call i32 @pthread_create(ptr @t, ptr null, ptr @f, ptr null)
  %2 = call i32 @pthread_create(ptr @t, ptr null, ptr @f, ptr %q)
  %3 = call i32 @pthread_join(i64 1, ptr null)
  %4 = call i32 @pthread_join(i64 2, ptr null)
  %r = getelementptr [16 x i64], ptr @a, i64 0, i64 8
  %u = load i64, ptr @a
  %v = load i64, ptr %r
  %s = add i64 %u, %v
  call void @pg_out(i64 %s)
  ret i32 0
}
@t = global i64 0
@u = global i64 0
@r = global i64 0
define ptr @f(ptr %x) {
entry:
  %n = call i64 @pg_in_len()
  br label %c
c:
  %i = phi i64 [ 0, %entry ], [ %j, %b ]
  %s = phi i64 [ 0, %entry ], [ %r, %b ]
  %d = icmp slt i64 %i, %n
  br i1 %d, label %b, label %e
b:
  %v = call i64 @pg_in(i64 %i)
  %q = sdiv i64 100, %v
  %r = add i64 %s, %q
  %j = add i64 %i, 1
  br label %c
e:
  %y = inttoptr i64 %s to ptr
  ret ptr %y
}
define i32 @main() {
entry:
  call void @pg_out(i64 7)
  %1 = call i32 @pthread_create(ptr @t, ptr null, ptr @f, ptr null)
  %2 = call i32 @pthread_create(ptr @u, ptr null, ptr @g, ptr null)
  %a = load i64, ptr @t
  %b = load i64, ptr @u
  %3 = call i32 @pthread_join(i64 %a, ptr @r)
  %4 = call i32 @pthread_join(i64 %b, ptr null)
  %z = load i64, ptr @r
  call void @pg_out(i64 %z)
  ret i32 0
}
define ptr @g(ptr %x) {
  %v = call i64 @pg_in(i64 1)
  %q = sdiv i64 1, %v
  ret ptr null
}
@t = global i64 0
define ptr @f(ptr %x) {
entry:
  %n = call i64 @pg_in(i64 0)
  br label %c
c:
  %i = phi i64 [ 0, %entry ], [ %j, %c ]
  %j = add i64 %i, 1
  %d = icmp slt i64 %j, %n
  br i1 %d, label %c, label %e
e:
  ret ptr null
}
define i32 @main() {
entry:
  %1 = call i32 @pthread_create(ptr @t, ptr null, ptr @f, ptr null)
  %2 = call i32 @pthread_join(i64 1, ptr null)
  %a = call i64 @pg_in(i64 1)
  %d = icmp ne i64 %a, 0
  br i1 %d, label %y, label %z
y:
  br label %z
z:
  ret i32 0
}
define i32 @main() {
entry:
  %n = call i64 @pg_in(i64 0)
  br label %c
c:
  %i = phi i64 [ 0, %entry ], [ %j, %b ]
  %d = icmp slt i64 %i, %n
  br i1 %d, label %b, label %e
b:
  call void @pg_out(i64 %i)
  %j = add i64 %i, 1
  br label %c
e:
  ret i32 0
}
@b = global [4 x i64] zeroinitializer
@t = global i64 0
@r = global i64 0
@s = global i64 0
define ptr @w(ptr %x) {
entry:
  %1 = call i32 @pthread_barrier_wait(ptr @b)
  %2 = sext i32 %1 to i64
  %3 = inttoptr i64 %2 to ptr
  ret ptr %3
}
define i32 @main() {
entry:
  %1 = call i32 @pthread_barrier_init(ptr @b, ptr null, i32 3)
  %2 = call i32 @pthread_create(ptr @t, ptr null, ptr @w, ptr null)
  %3 = call i32 @pthread_create(ptr @t, ptr null, ptr @w, ptr null)
  %4 = call i32 @pthread_barrier_wait(ptr @b)
  %5 = call i32 @pthread_join(i64 1, ptr @r)
  %6 = call i32 @pthread_join(i64 2, ptr @s)
  %7 = sext i32 %4 to i64
  call void @pg_out(i64 %7)
  %8 = load i64, ptr @r
  call void @pg_out(i64 %8)
  %9 = load i64, ptr @s
  call void @pg_out(i64 %9)
  ret i32 0
}
@m = global [5 x i64] zeroinitializer
@c = global [6 x i64] zeroinitializer
@t = global i64 0
define ptr @w(ptr %x) {
entry:
  %1 = call i32 @pthread_mutex_lock(ptr @m)
  %2 = call i32 @pthread_cond_wait(ptr @c, ptr @m)
  %3 = call i32 @pthread_mutex_unlock(ptr @m)
  ret ptr null
}
define ptr @h(ptr %x) {
entry:
  %1 = call i32 @pthread_mutex_lock(ptr @m)
  %2 = call i32 @pthread_cond_broadcast(ptr @c)
  %3 = call i32 @pthread_mutex_unlock(ptr @m)
  ret ptr null
}
define i32 @main() {
entry:
  %1 = call i32 @pthread_create(ptr @t, ptr null, ptr @w, ptr null)
  %2 = call i32 @pthread_create(ptr @t, ptr null, ptr @h, ptr null)
  %3 = call i32 @pthread_join(i64 1, ptr null)
  %4 = call i32 @pthread_join(i64 2, ptr null)
  ret i32 0
}
@t = global i64 0
define ptr @w(ptr %x) {
  ret ptr null
}
define i32 @main() {
entry:
  %n = call i64 @pg_in(i64 0)
  br label %c
c:
  %i = phi i64 [ 0, %entry ], [ %j, %c ]
  %1 = call i32 @pthread_create(ptr @t, ptr null, ptr @w, ptr null)
  %j = add i64 %i, 1
  %d = icmp slt i64 %j, %n
  br i1 %d, label %c, label %e
e:
  ret i32 0
}
@m = global [5 x i64] zeroinitializer
define i32 @main() {
  %1 = call i32 @pthread_mutex_trylock(ptr @m)
  %2 = call i32 @pthread_mutex_trylock(ptr @m)
  %3 = sext i32 %1 to i64
  %4 = sext i32 %2 to i64
  call void @pg_out(i64 %3)
  call void @pg_out(i64 %4)
  ret i32 0
}
define i32 @main() {
  %p = call ptr @malloc(i64 262144)
  %q = call ptr @malloc(i64 8)
  %c = icmp eq ptr %p, null
  %d = icmp eq ptr %q, null
  %e = zext i1 %c to i64
  %f = zext i1 %d to i64
  call void @pg_out(i64 %e)
  call void @pg_out(i64 %f)
  ret i32 0
}
