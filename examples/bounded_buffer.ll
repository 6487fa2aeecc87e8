source_filename = "bounded_buffer.c"
target datalayout = "e-m:e-p270:32:32-p271:32:32-p272:64:64-i64:64-f80:128-n8:16:32:64-S128"
target triple = "x86_64-pc-linux-gnu"

%union.sem_t = type { i64, [24 x i8] }
%union.pthread_mutex_t = type { %struct.__pthread_mutex_s }
%struct.__pthread_mutex_s = type { i32, i32, i32, i32, i32, i16, i16, %struct.__pthread_internal_list }
%struct.__pthread_internal_list = type { ptr, ptr }
%pg.struct.pthread_mutex_t = type { [5 x i64] }
%pg.struct.pthread_cond_t = type { [6 x i64] }
%pg.struct.pg_semaphore = type { %pg.struct.pthread_mutex_t, %pg.struct.pthread_cond_t, i64 }
%pg.struct.pg_lock = type { %pg.struct.pthread_mutex_t, ptr, i32, i32 }

@empty = internal global %union.sem_t zeroinitializer, align 8
@full = internal global %union.sem_t zeroinitializer, align 8
@.str = private unnamed_addr constant [22 x i8] c"%ld numbers, sum %ld\0A\00", align 1
@lock = internal global %union.pthread_mutex_t zeroinitializer, align 8
@buffer = internal global [3 x i64] zeroinitializer, align 16
@last = internal global i32 0, align 4
@first = internal global i32 0, align 4
@pg.print.text.1 = private constant [15 x i8] c" numbers, sum \00"

define dso_local i32 @main() #0 {
v.0:
  %v.1 = alloca i32, align 4
  %v.2 = alloca [2 x i64], align 16
  %v.3 = alloca [2 x i64], align 16
  %v.4 = alloca i64, align 8
  %v.5 = alloca i64, align 8
  %v.6 = alloca i64, align 8
  %v.7 = alloca i32, align 4
  %v.8 = alloca ptr, align 8
  store i32 0, ptr %v.1, align 4
  %v.9 = call i64 @pg_in_len()
  %v.10 = sdiv i64 %v.9, 2
  store i64 %v.10, ptr %v.4, align 8
  %v.11 = call i32 @sem_init(ptr noundef @empty, i32 noundef 0, i32 noundef 3) #3
  %v.12 = call i32 @sem_init(ptr noundef @full, i32 noundef 0, i32 noundef 0) #3
  store i64 0, ptr %v.5, align 8
  br label %v.13
v.13:
  %v.14 = load i64, ptr %v.5, align 8
  %v.15 = icmp slt i64 %v.14, 2
  br i1 %v.15, label %v.16, label %v.39
v.16:
  %v.17 = load i64, ptr %v.5, align 8
  %v.18 = getelementptr inbounds [2 x i64], ptr %v.2, i64 0, i64 %v.17
  %v.19 = load i64, ptr %v.5, align 8
  %v.20 = inttoptr i64 %v.19 to ptr
  %v.21 = call i32 @pthread_create(ptr noundef %v.18, ptr noundef null, ptr noundef @producer, ptr noundef %v.20) #3
  %v.22 = load i64, ptr %v.5, align 8
  %v.23 = getelementptr inbounds [2 x i64], ptr %v.3, i64 0, i64 %v.22
  %v.24 = load i64, ptr %v.5, align 8
  %v.25 = icmp ne i64 %v.24, 0
  br i1 %v.25, label %v.26, label %v.28
v.26:
  %v.27 = load i64, ptr %v.4, align 8
  br label %v.32
v.28:
  %v.29 = call i64 @pg_in_len()
  %v.30 = load i64, ptr %v.4, align 8
  %v.31 = sub nsw i64 %v.29, %v.30
  br label %v.32
v.32:
  %v.33 = phi i64 [ %v.27, %v.26 ], [ %v.31, %v.28 ]
  %v.34 = inttoptr i64 %v.33 to ptr
  %v.35 = call i32 @pthread_create(ptr noundef %v.23, ptr noundef null, ptr noundef @consumer, ptr noundef %v.34) #3
  br label %v.36
v.36:
  %v.37 = load i64, ptr %v.5, align 8
  %v.38 = add nsw i64 %v.37, 1
  store i64 %v.38, ptr %v.5, align 8
  br label %v.13, !llvm.loop !6
v.39:
  store i64 0, ptr %v.6, align 8
  store i32 0, ptr %v.7, align 4
  br label %v.40
v.40:
  %v.41 = load i32, ptr %v.7, align 4
  %v.42 = icmp slt i32 %v.41, 2
  br i1 %v.42, label %v.43, label %v.61
v.43:
  %v.44 = load i32, ptr %v.7, align 4
  %v.45 = sext i32 %v.44 to i64
  %v.46 = getelementptr inbounds [2 x i64], ptr %v.2, i64 0, i64 %v.45
  %v.47 = load i64, ptr %v.46, align 8
  %v.48 = call i32 @pthread_join(i64 noundef %v.47, ptr noundef null)
  %v.49 = load i32, ptr %v.7, align 4
  %v.50 = sext i32 %v.49 to i64
  %v.51 = getelementptr inbounds [2 x i64], ptr %v.3, i64 0, i64 %v.50
  %v.52 = load i64, ptr %v.51, align 8
  %v.53 = call i32 @pthread_join(i64 noundef %v.52, ptr noundef %v.8)
  %v.54 = load ptr, ptr %v.8, align 8
  %v.55 = ptrtoint ptr %v.54 to i64
  %v.56 = load i64, ptr %v.6, align 8
  %v.57 = add nsw i64 %v.56, %v.55
  store i64 %v.57, ptr %v.6, align 8
  br label %v.58
v.58:
  %v.59 = load i32, ptr %v.7, align 4
  %v.60 = add nsw i32 %v.59, 1
  store i32 %v.60, ptr %v.7, align 4
  br label %v.40, !llvm.loop !8
v.61:
  %v.62 = call i64 @pg_in_len()
  %v.63 = load i64, ptr %v.6, align 8
  call void @pg_print(i64 %v.62)
  %pg.print.count.2 = call i32 @pg_print_text(ptr @pg.print.text.1)
  call void @pg_out(i64 %v.63)
  ret i32 0
}

define internal ptr @producer(ptr noundef %v.0) #0 {
v.1:
  %v.2 = alloca ptr, align 8
  %v.3 = alloca i64, align 8
  store ptr %v.0, ptr %v.2, align 8
  %v.4 = load ptr, ptr %v.2, align 8
  %v.5 = ptrtoint ptr %v.4 to i64
  store i64 %v.5, ptr %v.3, align 8
  br label %v.6
v.6:
  %v.7 = load i64, ptr %v.3, align 8
  %v.8 = call i64 @pg_in_len()
  %v.9 = icmp slt i64 %v.7, %v.8
  br i1 %v.9, label %v.10, label %v.26
v.10:
  %v.11 = call i32 @sem_wait(ptr noundef @empty)
  %v.12 = call i32 @pthread_mutex_lock(ptr noundef @lock) #3
  %v.13 = load i64, ptr %v.3, align 8
  %v.14 = call i64 @pg_in(i64 noundef %v.13)
  %v.15 = load i32, ptr @last, align 4
  %v.16 = sext i32 %v.15 to i64
  %v.17 = getelementptr inbounds [3 x i64], ptr @buffer, i64 0, i64 %v.16
  store i64 %v.14, ptr %v.17, align 8
  %v.18 = load i32, ptr @last, align 4
  %v.19 = add nsw i32 %v.18, 1
  %v.20 = srem i32 %v.19, 3
  store i32 %v.20, ptr @last, align 4
  %v.21 = call i32 @pthread_mutex_unlock(ptr noundef @lock) #3
  %v.22 = call i32 @sem_post(ptr noundef @full) #3
  br label %v.23
v.23:
  %v.24 = load i64, ptr %v.3, align 8
  %v.25 = add nsw i64 %v.24, 2
  store i64 %v.25, ptr %v.3, align 8
  br label %v.6, !llvm.loop !9
v.26:
  ret ptr null
}

define internal ptr @consumer(ptr noundef %v.0) #0 {
v.1:
  %v.2 = alloca ptr, align 8
  %v.3 = alloca i64, align 8
  %v.4 = alloca i64, align 8
  store ptr %v.0, ptr %v.2, align 8
  store i64 0, ptr %v.3, align 8
  store i64 0, ptr %v.4, align 8
  br label %v.5
v.5:
  %v.6 = load i64, ptr %v.4, align 8
  %v.7 = load ptr, ptr %v.2, align 8
  %v.8 = ptrtoint ptr %v.7 to i64
  %v.9 = icmp slt i64 %v.6, %v.8
  br i1 %v.9, label %v.10, label %v.27
v.10:
  %v.11 = call i32 @sem_wait(ptr noundef @full)
  %v.12 = call i32 @pthread_mutex_lock(ptr noundef @lock) #3
  %v.13 = load i32, ptr @first, align 4
  %v.14 = sext i32 %v.13 to i64
  %v.15 = getelementptr inbounds [3 x i64], ptr @buffer, i64 0, i64 %v.14
  %v.16 = load i64, ptr %v.15, align 8
  %v.17 = load i64, ptr %v.3, align 8
  %v.18 = add nsw i64 %v.17, %v.16
  store i64 %v.18, ptr %v.3, align 8
  %v.19 = load i32, ptr @first, align 4
  %v.20 = add nsw i32 %v.19, 1
  %v.21 = srem i32 %v.20, 3
  store i32 %v.21, ptr @first, align 4
  %v.22 = call i32 @pthread_mutex_unlock(ptr noundef @lock) #3
  %v.23 = call i32 @sem_post(ptr noundef @empty) #3
  br label %v.24
v.24:
  %v.25 = load i64, ptr %v.4, align 8
  %v.26 = add nsw i64 %v.25, 1
  store i64 %v.26, ptr %v.4, align 8
  br label %v.5, !llvm.loop !10
v.27:
  %v.28 = load i64, ptr %v.3, align 8
  %v.29 = inttoptr i64 %v.28 to ptr
  ret ptr %v.29
}

define dso_local i32 @pg_print_text(ptr noundef %v.0) {
v.1:
  %v.2 = alloca ptr, align 8
  %v.3 = alloca i32, align 4
  store ptr %v.0, ptr %v.2, align 8
  store i32 0, ptr %v.3, align 4
  br label %v.4
v.4:
  %v.5 = load ptr, ptr %v.2, align 8
  %v.6 = load i32, ptr %v.3, align 4
  %v.7 = sext i32 %v.6 to i64
  %v.8 = getelementptr inbounds i8, ptr %v.5, i64 %v.7
  %v.9 = load i8, ptr %v.8, align 1
  %v.10 = icmp ne i8 %v.9, 0
  br i1 %v.10, label %v.11, label %v.22
v.11:
  %v.12 = load ptr, ptr %v.2, align 8
  %v.13 = load i32, ptr %v.3, align 4
  %v.14 = sext i32 %v.13 to i64
  %v.15 = getelementptr inbounds i8, ptr %v.12, i64 %v.14
  %v.16 = load i8, ptr %v.15, align 1
  %v.17 = sext i8 %v.16 to i32
  %v.18 = call i32 @putchar(i32 noundef %v.17)
  br label %v.19
v.19:
  %v.20 = load i32, ptr %v.3, align 4
  %v.21 = add nsw i32 %v.20, 1
  store i32 %v.21, ptr %v.3, align 4
  br label %v.4
v.22:
  %v.23 = load i32, ptr %v.3, align 4
  ret i32 %v.23
}

define dso_local i32 @sem_init(ptr noundef %v.0, i32 noundef %v.1, i32 noundef %v.2) {
v.3:
  %v.4 = alloca i32, align 4
  %v.5 = alloca ptr, align 8
  %v.6 = alloca i32, align 4
  %v.7 = alloca i32, align 4
  %v.8 = alloca ptr, align 8
  store ptr %v.0, ptr %v.5, align 8
  store i32 %v.1, ptr %v.6, align 4
  store i32 %v.2, ptr %v.7, align 4
  %v.9 = call ptr @malloc(i64 noundef 96)
  store ptr %v.9, ptr %v.8, align 8
  %v.10 = load ptr, ptr %v.8, align 8
  %v.11 = icmp ne ptr %v.10, null
  br i1 %v.11, label %v.13, label %v.12
v.12:
  store i32 -1, ptr %v.4, align 4
  br label %v.26
v.13:
  %v.14 = load ptr, ptr %v.8, align 8
  %v.15 = getelementptr inbounds %pg.struct.pg_semaphore, ptr %v.14, i32 0, i32 0
  %v.16 = call i32 @pthread_mutex_init(ptr noundef %v.15, ptr noundef null)
  %v.17 = load ptr, ptr %v.8, align 8
  %v.18 = getelementptr inbounds %pg.struct.pg_semaphore, ptr %v.17, i32 0, i32 1
  %v.19 = call i32 @pthread_cond_init(ptr noundef %v.18, ptr noundef null)
  %v.20 = load i32, ptr %v.7, align 4
  %v.21 = zext i32 %v.20 to i64
  %v.22 = load ptr, ptr %v.8, align 8
  %v.23 = getelementptr inbounds %pg.struct.pg_semaphore, ptr %v.22, i32 0, i32 2
  store i64 %v.21, ptr %v.23, align 8
  %v.24 = load ptr, ptr %v.8, align 8
  %v.25 = load ptr, ptr %v.5, align 8
  store ptr %v.24, ptr %v.25, align 8
  store i32 0, ptr %v.4, align 4
  br label %v.26
v.26:
  %v.27 = load i32, ptr %v.4, align 4
  ret i32 %v.27
}

define dso_local i32 @sem_post(ptr noundef %v.0) {
v.1:
  %v.2 = alloca ptr, align 8
  %v.3 = alloca ptr, align 8
  store ptr %v.0, ptr %v.2, align 8
  %v.4 = load ptr, ptr %v.2, align 8
  %v.5 = load ptr, ptr %v.4, align 8
  store ptr %v.5, ptr %v.3, align 8
  %v.6 = load ptr, ptr %v.3, align 8
  %v.7 = getelementptr inbounds %pg.struct.pg_semaphore, ptr %v.6, i32 0, i32 0
  %v.8 = call i32 @pthread_mutex_lock(ptr noundef %v.7)
  %v.9 = load ptr, ptr %v.3, align 8
  %v.10 = getelementptr inbounds %pg.struct.pg_semaphore, ptr %v.9, i32 0, i32 2
  %v.11 = load i64, ptr %v.10, align 8
  %v.12 = add i64 %v.11, 1
  store i64 %v.12, ptr %v.10, align 8
  %v.13 = load ptr, ptr %v.3, align 8
  %v.14 = getelementptr inbounds %pg.struct.pg_semaphore, ptr %v.13, i32 0, i32 1
  %v.15 = call i32 @pthread_cond_signal(ptr noundef %v.14)
  %v.16 = load ptr, ptr %v.3, align 8
  %v.17 = getelementptr inbounds %pg.struct.pg_semaphore, ptr %v.16, i32 0, i32 0
  %v.18 = call i32 @pthread_mutex_unlock(ptr noundef %v.17)
  ret i32 0
}

define dso_local i32 @sem_wait(ptr noundef %v.0) {
v.1:
  %v.2 = alloca ptr, align 8
  %v.3 = alloca ptr, align 8
  store ptr %v.0, ptr %v.2, align 8
  %v.4 = load ptr, ptr %v.2, align 8
  %v.5 = load ptr, ptr %v.4, align 8
  store ptr %v.5, ptr %v.3, align 8
  %v.6 = load ptr, ptr %v.3, align 8
  %v.7 = getelementptr inbounds %pg.struct.pg_semaphore, ptr %v.6, i32 0, i32 0
  %v.8 = call i32 @pthread_mutex_lock(ptr noundef %v.7)
  br label %v.9
v.9:
  %v.10 = load ptr, ptr %v.3, align 8
  %v.11 = getelementptr inbounds %pg.struct.pg_semaphore, ptr %v.10, i32 0, i32 2
  %v.12 = load i64, ptr %v.11, align 8
  %v.13 = icmp eq i64 %v.12, 0
  br i1 %v.13, label %v.14, label %v.20
v.14:
  %v.15 = load ptr, ptr %v.3, align 8
  %v.16 = getelementptr inbounds %pg.struct.pg_semaphore, ptr %v.15, i32 0, i32 1
  %v.17 = load ptr, ptr %v.3, align 8
  %v.18 = getelementptr inbounds %pg.struct.pg_semaphore, ptr %v.17, i32 0, i32 0
  %v.19 = call i32 @pthread_cond_wait(ptr noundef %v.16, ptr noundef %v.18)
  br label %v.9
v.20:
  %v.21 = load ptr, ptr %v.3, align 8
  %v.22 = getelementptr inbounds %pg.struct.pg_semaphore, ptr %v.21, i32 0, i32 2
  %v.23 = load i64, ptr %v.22, align 8
  %v.24 = add i64 %v.23, -1
  store i64 %v.24, ptr %v.22, align 8
  %v.25 = load ptr, ptr %v.3, align 8
  %v.26 = getelementptr inbounds %pg.struct.pg_semaphore, ptr %v.25, i32 0, i32 0
  %v.27 = call i32 @pthread_mutex_unlock(ptr noundef %v.26)
  ret i32 0
}

declare i64 @pg_in_len() #1
declare i32 @pthread_create(ptr noundef, ptr noundef, ptr noundef, ptr noundef) #2
declare i32 @pthread_join(i64 noundef, ptr noundef) #1
declare i32 @pthread_mutex_lock(ptr noundef) #2
declare i64 @pg_in(i64 noundef) #1
declare i32 @pthread_mutex_unlock(ptr noundef) #2
declare void @pg_print(i64)
declare void @pg_out(i64)
declare i32 @putchar(i32 noundef)
declare ptr @malloc(i64 noundef)
declare i32 @pthread_mutex_init(ptr noundef, ptr noundef)
declare i32 @pthread_cond_init(ptr noundef, ptr noundef)
declare i32 @pthread_cond_wait(ptr noundef, ptr noundef)
declare i32 @pthread_cond_signal(ptr noundef)

attributes #0 = { noinline nounwind optnone uwtable "frame-pointer"="all" "min-legal-vector-width"="0" "no-trapping-math"="true" "stack-protector-buffer-size"="8" "target-cpu"="x86-64" "target-features"="+cx8,+fxsr,+mmx,+sse,+sse2,+x87" "tune-cpu"="generic" }
attributes #1 = { "frame-pointer"="all" "no-trapping-math"="true" "stack-protector-buffer-size"="8" "target-cpu"="x86-64" "target-features"="+cx8,+fxsr,+mmx,+sse,+sse2,+x87" "tune-cpu"="generic" }
attributes #2 = { nounwind "frame-pointer"="all" "no-trapping-math"="true" "stack-protector-buffer-size"="8" "target-cpu"="x86-64" "target-features"="+cx8,+fxsr,+mmx,+sse,+sse2,+x87" "tune-cpu"="generic" }
attributes #3 = { nounwind }
!llvm.module.flags = !{!0, !1, !2, !3, !4}
!llvm.ident = !{!5}
!0 = !{i32 1, !"wchar_size", i32 4}
!1 = !{i32 8, !"PIC Level", i32 2}
!2 = !{i32 7, !"PIE Level", i32 2}
!3 = !{i32 7, !"uwtable", i32 2}
!4 = !{i32 7, !"frame-pointer", i32 2}
!5 = !{!"Debian clang version 16.0.6 (15~deb12u1)"}
!6 = distinct !{!6, !7}
!7 = !{!"llvm.loop.mustprogress"}
!8 = distinct !{!8, !7}
!9 = distinct !{!9, !7}
!10 = distinct !{!10, !7}
