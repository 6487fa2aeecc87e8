source_filename = "readers_writers.c"
target datalayout = "e-m:e-p270:32:32-p271:32:32-p272:64:64-i64:64-f80:128-n8:16:32:64-S128"
target triple = "x86_64-pc-linux-gnu"

%union.pthread_rwlock_t = type { %struct.__pthread_rwlock_arch_t }
%struct.__pthread_rwlock_arch_t = type { i32, i32, i32, i32, i32, i32, i32, i32, i8, [7 x i8], i64, i32 }
%pg.struct.pthread_mutex_t = type { [5 x i64] }
%pg.struct.pthread_cond_t = type { [6 x i64] }
%pg.struct.pg_semaphore = type { %pg.struct.pthread_mutex_t, %pg.struct.pthread_cond_t, i64 }
%pg.struct.pg_lock = type { %pg.struct.pthread_mutex_t, ptr, i32, i32 }

@.str = private unnamed_addr constant [36 x i8] c"sum %ld, copies that differed: %ld\0A\00", align 1
@sum = internal global i64 0, align 8
@lock = internal global %union.pthread_rwlock_t zeroinitializer, align 8
@copy = internal global i64 0, align 8
@pg.print.text.1 = private constant [5 x i8] c"sum \00"
@pg.print.text.3 = private constant [25 x i8] c", copies that differed: \00"

define dso_local i32 @main() #0 {
v.0:
  %v.1 = alloca i32, align 4
  %v.2 = alloca i64, align 8
  %v.3 = alloca [2 x i64], align 16
  %v.4 = alloca i32, align 4
  %v.5 = alloca i64, align 8
  %v.6 = alloca i32, align 4
  %v.7 = alloca ptr, align 8
  store i32 0, ptr %v.1, align 4
  %v.8 = call i32 @pthread_create(ptr noundef %v.2, ptr noundef null, ptr noundef @writer, ptr noundef null) #3
  store i32 0, ptr %v.4, align 4
  br label %v.9
v.9:
  %v.10 = load i32, ptr %v.4, align 4
  %v.11 = icmp slt i32 %v.10, 2
  br i1 %v.11, label %v.12, label %v.20
v.12:
  %v.13 = load i32, ptr %v.4, align 4
  %v.14 = sext i32 %v.13 to i64
  %v.15 = getelementptr inbounds [2 x i64], ptr %v.3, i64 0, i64 %v.14
  %v.16 = call i32 @pthread_create(ptr noundef %v.15, ptr noundef null, ptr noundef @reader, ptr noundef null) #3
  br label %v.17
v.17:
  %v.18 = load i32, ptr %v.4, align 4
  %v.19 = add nsw i32 %v.18, 1
  store i32 %v.19, ptr %v.4, align 4
  br label %v.9, !llvm.loop !6
v.20:
  store i64 0, ptr %v.5, align 8
  store i32 0, ptr %v.6, align 4
  br label %v.21
v.21:
  %v.22 = load i32, ptr %v.6, align 4
  %v.23 = icmp slt i32 %v.22, 2
  br i1 %v.23, label %v.24, label %v.37
v.24:
  %v.25 = load i32, ptr %v.6, align 4
  %v.26 = sext i32 %v.25 to i64
  %v.27 = getelementptr inbounds [2 x i64], ptr %v.3, i64 0, i64 %v.26
  %v.28 = load i64, ptr %v.27, align 8
  %v.29 = call i32 @pthread_join(i64 noundef %v.28, ptr noundef %v.7)
  %v.30 = load ptr, ptr %v.7, align 8
  %v.31 = ptrtoint ptr %v.30 to i64
  %v.32 = load i64, ptr %v.5, align 8
  %v.33 = add nsw i64 %v.32, %v.31
  store i64 %v.33, ptr %v.5, align 8
  br label %v.34
v.34:
  %v.35 = load i32, ptr %v.6, align 4
  %v.36 = add nsw i32 %v.35, 1
  store i32 %v.36, ptr %v.6, align 4
  br label %v.21, !llvm.loop !8
v.37:
  %v.38 = load i64, ptr %v.2, align 8
  %v.39 = call i32 @pthread_join(i64 noundef %v.38, ptr noundef null)
  %v.40 = load i64, ptr @sum, align 8
  %v.41 = load i64, ptr %v.5, align 8
  %pg.print.count.2 = call i32 @pg_print_text(ptr @pg.print.text.1)
  call void @pg_print(i64 %v.40)
  %pg.print.count.4 = call i32 @pg_print_text(ptr @pg.print.text.3)
  call void @pg_out(i64 %v.41)
  ret i32 0
}

define internal ptr @writer(ptr noundef %v.0) #0 {
v.1:
  %v.2 = alloca ptr, align 8
  %v.3 = alloca i64, align 8
  store ptr %v.0, ptr %v.2, align 8
  store i64 0, ptr %v.3, align 8
  br label %v.4
v.4:
  %v.5 = load i64, ptr %v.3, align 8
  %v.6 = call i64 @pg_in_len()
  %v.7 = icmp slt i64 %v.5, %v.6
  br i1 %v.7, label %v.8, label %v.19
v.8:
  %v.9 = call i32 @pthread_rwlock_wrlock(ptr noundef @lock) #3
  %v.10 = load i64, ptr %v.3, align 8
  %v.11 = call i64 @pg_in(i64 noundef %v.10)
  %v.12 = load i64, ptr @sum, align 8
  %v.13 = add nsw i64 %v.12, %v.11
  store i64 %v.13, ptr @sum, align 8
  %v.14 = load i64, ptr @sum, align 8
  store i64 %v.14, ptr @copy, align 8
  %v.15 = call i32 @pthread_rwlock_unlock(ptr noundef @lock) #3
  br label %v.16
v.16:
  %v.17 = load i64, ptr %v.3, align 8
  %v.18 = add nsw i64 %v.17, 1
  store i64 %v.18, ptr %v.3, align 8
  br label %v.4, !llvm.loop !9
v.19:
  ret ptr null
}

define internal ptr @reader(ptr noundef %v.0) #0 {
v.1:
  %v.2 = alloca ptr, align 8
  %v.3 = alloca i64, align 8
  %v.4 = alloca i64, align 8
  store ptr %v.0, ptr %v.2, align 8
  store i64 0, ptr %v.3, align 8
  store i64 0, ptr %v.4, align 8
  br label %v.5
v.5:
  %v.6 = load i64, ptr %v.4, align 8
  %v.7 = call i64 @pg_in_len()
  %v.8 = icmp slt i64 %v.6, %v.7
  br i1 %v.8, label %v.9, label %v.22
v.9:
  %v.10 = call i32 @pthread_rwlock_rdlock(ptr noundef @lock) #3
  %v.11 = load i64, ptr @sum, align 8
  %v.12 = load i64, ptr @copy, align 8
  %v.13 = icmp ne i64 %v.11, %v.12
  %v.14 = zext i1 %v.13 to i32
  %v.15 = sext i32 %v.14 to i64
  %v.16 = load i64, ptr %v.3, align 8
  %v.17 = add nsw i64 %v.16, %v.15
  store i64 %v.17, ptr %v.3, align 8
  %v.18 = call i32 @pthread_rwlock_unlock(ptr noundef @lock) #3
  br label %v.19
v.19:
  %v.20 = load i64, ptr %v.4, align 8
  %v.21 = add nsw i64 %v.20, 1
  store i64 %v.21, ptr %v.4, align 8
  br label %v.5, !llvm.loop !10
v.22:
  %v.23 = load i64, ptr %v.3, align 8
  %v.24 = inttoptr i64 %v.23 to ptr
  ret ptr %v.24
}

define dso_local i32 @pg_print_text(ptr noundef %v.0) {
v.1:
  %v.2 = alloca ptr, align 8
  %v.3 = alloca i32, align 4
  store ptr %v.0, ptr %v.2, align 8
  store i32 0, ptr %v.3, align 4
  br label %v.4
v.4:
  %v.5 = load ptr, ptr %v.2, align 8
  %v.6 = load i32, ptr %v.3, align 4
  %v.7 = sext i32 %v.6 to i64
  %v.8 = getelementptr inbounds i8, ptr %v.5, i64 %v.7
  %v.9 = load i8, ptr %v.8, align 1
  %v.10 = icmp ne i8 %v.9, 0
  br i1 %v.10, label %v.11, label %v.22
v.11:
  %v.12 = load ptr, ptr %v.2, align 8
  %v.13 = load i32, ptr %v.3, align 4
  %v.14 = sext i32 %v.13 to i64
  %v.15 = getelementptr inbounds i8, ptr %v.12, i64 %v.14
  %v.16 = load i8, ptr %v.15, align 1
  %v.17 = sext i8 %v.16 to i32
  %v.18 = call i32 @putchar(i32 noundef %v.17)
  br label %v.19
v.19:
  %v.20 = load i32, ptr %v.3, align 4
  %v.21 = add nsw i32 %v.20, 1
  store i32 %v.21, ptr %v.3, align 4
  br label %v.4
v.22:
  %v.23 = load i32, ptr %v.3, align 4
  ret i32 %v.23
}

define dso_local i32 @pthread_rwlock_rdlock(ptr noundef %v.0) {
v.1:
  %v.2 = alloca ptr, align 8
  store ptr %v.0, ptr %v.2, align 8
  %v.3 = load ptr, ptr %v.2, align 8
  %v.4 = getelementptr inbounds %pg.struct.pg_lock, ptr %v.3, i32 0, i32 0
  %v.5 = call i32 @pthread_mutex_lock(ptr noundef %v.4)
  br label %v.6
v.6:
  %v.7 = load ptr, ptr %v.2, align 8
  %v.8 = getelementptr inbounds %pg.struct.pg_lock, ptr %v.7, i32 0, i32 3
  %v.9 = load i32, ptr %v.8, align 4
  %v.10 = icmp ne i32 %v.9, 0
  br i1 %v.10, label %v.11, label %v.17
v.11:
  %v.12 = load ptr, ptr %v.2, align 8
  %v.13 = call ptr @pg_change_of(ptr noundef %v.12)
  %v.14 = load ptr, ptr %v.2, align 8
  %v.15 = getelementptr inbounds %pg.struct.pg_lock, ptr %v.14, i32 0, i32 0
  %v.16 = call i32 @pthread_cond_wait(ptr noundef %v.13, ptr noundef %v.15)
  br label %v.6
v.17:
  %v.18 = load ptr, ptr %v.2, align 8
  %v.19 = getelementptr inbounds %pg.struct.pg_lock, ptr %v.18, i32 0, i32 2
  %v.20 = load i32, ptr %v.19, align 8
  %v.21 = add nsw i32 %v.20, 1
  store i32 %v.21, ptr %v.19, align 8
  %v.22 = load ptr, ptr %v.2, align 8
  %v.23 = getelementptr inbounds %pg.struct.pg_lock, ptr %v.22, i32 0, i32 0
  %v.24 = call i32 @pthread_mutex_unlock(ptr noundef %v.23)
  ret i32 0
}

define internal ptr @pg_change_of(ptr noundef %v.0) {
v.1:
  %v.2 = alloca ptr, align 8
  store ptr %v.0, ptr %v.2, align 8
  %v.3 = load ptr, ptr %v.2, align 8
  %v.4 = getelementptr inbounds %pg.struct.pg_lock, ptr %v.3, i32 0, i32 1
  %v.5 = load ptr, ptr %v.4, align 8
  %v.6 = icmp ne ptr %v.5, null
  br i1 %v.6, label %v.15, label %v.7
v.7:
  %v.8 = call ptr @malloc(i64 noundef 48)
  %v.9 = load ptr, ptr %v.2, align 8
  %v.10 = getelementptr inbounds %pg.struct.pg_lock, ptr %v.9, i32 0, i32 1
  store ptr %v.8, ptr %v.10, align 8
  %v.11 = load ptr, ptr %v.2, align 8
  %v.12 = getelementptr inbounds %pg.struct.pg_lock, ptr %v.11, i32 0, i32 1
  %v.13 = load ptr, ptr %v.12, align 8
  %v.14 = call i32 @pthread_cond_init(ptr noundef %v.13, ptr noundef null)
  br label %v.15
v.15:
  %v.16 = load ptr, ptr %v.2, align 8
  %v.17 = getelementptr inbounds %pg.struct.pg_lock, ptr %v.16, i32 0, i32 1
  %v.18 = load ptr, ptr %v.17, align 8
  ret ptr %v.18
}

define dso_local i32 @pthread_rwlock_unlock(ptr noundef %v.0) {
v.1:
  %v.2 = alloca ptr, align 8
  store ptr %v.0, ptr %v.2, align 8
  %v.3 = load ptr, ptr %v.2, align 8
  %v.4 = getelementptr inbounds %pg.struct.pg_lock, ptr %v.3, i32 0, i32 0
  %v.5 = call i32 @pthread_mutex_lock(ptr noundef %v.4)
  %v.6 = load ptr, ptr %v.2, align 8
  %v.7 = getelementptr inbounds %pg.struct.pg_lock, ptr %v.6, i32 0, i32 3
  %v.8 = load i32, ptr %v.7, align 4
  %v.9 = icmp ne i32 %v.8, 0
  br i1 %v.9, label %v.10, label %v.13
v.10:
  %v.11 = load ptr, ptr %v.2, align 8
  %v.12 = getelementptr inbounds %pg.struct.pg_lock, ptr %v.11, i32 0, i32 3
  store i32 0, ptr %v.12, align 4
  br label %v.18
v.13:
  %v.14 = load ptr, ptr %v.2, align 8
  %v.15 = getelementptr inbounds %pg.struct.pg_lock, ptr %v.14, i32 0, i32 2
  %v.16 = load i32, ptr %v.15, align 8
  %v.17 = add nsw i32 %v.16, -1
  store i32 %v.17, ptr %v.15, align 8
  br label %v.18
v.18:
  %v.19 = load ptr, ptr %v.2, align 8
  %v.20 = call ptr @pg_change_of(ptr noundef %v.19)
  %v.21 = call i32 @pthread_cond_broadcast(ptr noundef %v.20)
  %v.22 = load ptr, ptr %v.2, align 8
  %v.23 = getelementptr inbounds %pg.struct.pg_lock, ptr %v.22, i32 0, i32 0
  %v.24 = call i32 @pthread_mutex_unlock(ptr noundef %v.23)
  ret i32 0
}

define dso_local i32 @pthread_rwlock_wrlock(ptr noundef %v.0) {
v.1:
  %v.2 = alloca ptr, align 8
  store ptr %v.0, ptr %v.2, align 8
  %v.3 = load ptr, ptr %v.2, align 8
  %v.4 = getelementptr inbounds %pg.struct.pg_lock, ptr %v.3, i32 0, i32 0
  %v.5 = call i32 @pthread_mutex_lock(ptr noundef %v.4)
  br label %v.6
v.6:
  %v.7 = load ptr, ptr %v.2, align 8
  %v.8 = getelementptr inbounds %pg.struct.pg_lock, ptr %v.7, i32 0, i32 3
  %v.9 = load i32, ptr %v.8, align 4
  %v.10 = icmp ne i32 %v.9, 0
  br i1 %v.10, label %v.16, label %v.11
v.11:
  %v.12 = load ptr, ptr %v.2, align 8
  %v.13 = getelementptr inbounds %pg.struct.pg_lock, ptr %v.12, i32 0, i32 2
  %v.14 = load i32, ptr %v.13, align 8
  %v.15 = icmp ne i32 %v.14, 0
  br label %v.16
v.16:
  %v.17 = phi i1 [ true, %v.6 ], [ %v.15, %v.11 ]
  br i1 %v.17, label %v.18, label %v.24
v.18:
  %v.19 = load ptr, ptr %v.2, align 8
  %v.20 = call ptr @pg_change_of(ptr noundef %v.19)
  %v.21 = load ptr, ptr %v.2, align 8
  %v.22 = getelementptr inbounds %pg.struct.pg_lock, ptr %v.21, i32 0, i32 0
  %v.23 = call i32 @pthread_cond_wait(ptr noundef %v.20, ptr noundef %v.22)
  br label %v.6
v.24:
  %v.25 = load ptr, ptr %v.2, align 8
  %v.26 = getelementptr inbounds %pg.struct.pg_lock, ptr %v.25, i32 0, i32 3
  store i32 1, ptr %v.26, align 4
  %v.27 = load ptr, ptr %v.2, align 8
  %v.28 = getelementptr inbounds %pg.struct.pg_lock, ptr %v.27, i32 0, i32 0
  %v.29 = call i32 @pthread_mutex_unlock(ptr noundef %v.28)
  ret i32 0
}

declare i32 @pthread_create(ptr noundef, ptr noundef, ptr noundef, ptr noundef) #1
declare i32 @pthread_join(i64 noundef, ptr noundef) #2
declare i64 @pg_in_len() #2
declare i64 @pg_in(i64 noundef) #2
declare void @pg_print(i64)
declare void @pg_out(i64)
declare i32 @putchar(i32 noundef)
declare ptr @malloc(i64 noundef)
declare i32 @pthread_cond_init(ptr noundef, ptr noundef)
declare i32 @pthread_mutex_lock(ptr noundef)
declare i32 @pthread_cond_wait(ptr noundef, ptr noundef)
declare i32 @pthread_mutex_unlock(ptr noundef)
declare i32 @pthread_cond_broadcast(ptr noundef)

attributes #0 = { noinline nounwind optnone uwtable "frame-pointer"="all" "min-legal-vector-width"="0" "no-trapping-math"="true" "stack-protector-buffer-size"="8" "target-cpu"="x86-64" "target-features"="+cx8,+fxsr,+mmx,+sse,+sse2,+x87" "tune-cpu"="generic" }
attributes #1 = { nounwind "frame-pointer"="all" "no-trapping-math"="true" "stack-protector-buffer-size"="8" "target-cpu"="x86-64" "target-features"="+cx8,+fxsr,+mmx,+sse,+sse2,+x87" "tune-cpu"="generic" }
attributes #2 = { "frame-pointer"="all" "no-trapping-math"="true" "stack-protector-buffer-size"="8" "target-cpu"="x86-64" "target-features"="+cx8,+fxsr,+mmx,+sse,+sse2,+x87" "tune-cpu"="generic" }
attributes #3 = { nounwind }
!llvm.module.flags = !{!0, !1, !2, !3, !4}
!llvm.ident = !{!5}
!0 = !{i32 1, !"wchar_size", i32 4}
!1 = !{i32 8, !"PIC Level", i32 2}
!2 = !{i32 7, !"PIE Level", i32 2}
!3 = !{i32 7, !"uwtable", i32 2}
!4 = !{i32 7, !"frame-pointer", i32 2}
!5 = !{!"Debian clang version 16.0.6 (15~deb12u1)"}
!6 = distinct !{!6, !7}
!7 = !{!"llvm.loop.mustprogress"}
!8 = distinct !{!8, !7}
!9 = distinct !{!9, !7}
!10 = distinct !{!10, !7}
