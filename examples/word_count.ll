source_filename = "word_count.c"
target datalayout = "e-m:e-p270:32:32-p271:32:32-p272:64:64-i64:64-f80:128-n8:16:32:64-S128"
target triple = "x86_64-pc-linux-gnu"

%union.pthread_mutex_t = type { %struct.__pthread_mutex_s }
%struct.__pthread_mutex_s = type { i32, i32, i32, i32, i32, i16, i16, %struct.__pthread_internal_list }
%struct.__pthread_internal_list = type { ptr, ptr }
%union.pthread_cond_t = type { %struct.__pthread_cond_s }
%struct.__pthread_cond_s = type { %union.__atomic_wide_counter, %union.__atomic_wide_counter, [2 x i32], [2 x i32], i32, i32, [2 x i32] }
%union.__atomic_wide_counter = type { i64 }
%pg.struct.pthread_mutex_t = type { [5 x i64] }
%pg.struct.pthread_cond_t = type { [6 x i64] }
%pg.struct.pg_semaphore = type { %pg.struct.pthread_mutex_t, %pg.struct.pthread_cond_t, i64 }
%pg.struct.pg_lock = type { %pg.struct.pthread_mutex_t, ptr, i32, i32 }

@.str = private unnamed_addr constant [10 x i8] c"%d %d %d\0A\00", align 1
@text = internal constant [90 x i8] c"it takes a program text\0Aand lines of numbers\0Aand the schedule that was tested\0Aruns again\0A\00", align 16
@lock = internal global %union.pthread_mutex_t zeroinitializer, align 8
@full = internal global i8 0, align 1
@changed = internal global %union.pthread_cond_t zeroinitializer, align 8
@piece = internal global [16 x i8] zeroinitializer, align 16
@length = internal global i64 0, align 8
@closed = internal global i8 0, align 1
@pg.print.text.2 = private constant [2 x i8] c" \00"
@pg.print.text.5 = private constant [2 x i8] c" \00"

define dso_local i32 @main() #0 {
v.0:
  %v.1 = alloca i32, align 4
  %v.2 = alloca i64, align 8
  %v.3 = alloca [16 x i8], align 16
  %v.4 = alloca i32, align 4
  %v.5 = alloca i32, align 4
  %v.6 = alloca i32, align 4
  %v.7 = alloca i8, align 1
  %v.8 = alloca i64, align 8
  %v.9 = alloca i64, align 8
  %v.10 = alloca i8, align 1
  store i32 0, ptr %v.1, align 4
  store i32 0, ptr %v.4, align 4
  store i32 0, ptr %v.5, align 4
  store i32 0, ptr %v.6, align 4
  store i8 0, ptr %v.7, align 1
  %v.11 = call i32 @pthread_create(ptr noundef %v.2, ptr noundef null, ptr noundef @producer, ptr noundef null) #5
  br label %v.12
v.12:
  %v.13 = getelementptr inbounds [16 x i8], ptr %v.3, i64 0, i64 0
  %v.14 = call i64 @take(ptr noundef %v.13)
  store i64 %v.14, ptr %v.8, align 8
  %v.15 = icmp ugt i64 %v.14, 0
  br i1 %v.15, label %v.16, label %v.68
v.16:
  store i64 0, ptr %v.9, align 8
  br label %v.17
v.17:
  %v.18 = load i64, ptr %v.9, align 8
  %v.19 = load i64, ptr %v.8, align 8
  %v.20 = icmp ult i64 %v.18, %v.19
  br i1 %v.20, label %v.21, label %v.62
v.21:
  %v.22 = load i64, ptr %v.9, align 8
  %v.23 = getelementptr inbounds [16 x i8], ptr %v.3, i64 0, i64 %v.22
  %v.24 = load i8, ptr %v.23, align 1
  %v.25 = sext i8 %v.24 to i32
  %v.26 = icmp eq i32 %v.25, 32
  br i1 %v.26, label %v.33, label %v.27
v.27:
  %v.28 = load i64, ptr %v.9, align 8
  %v.29 = getelementptr inbounds [16 x i8], ptr %v.3, i64 0, i64 %v.28
  %v.30 = load i8, ptr %v.29, align 1
  %v.31 = sext i8 %v.30 to i32
  %v.32 = icmp eq i32 %v.31, 10
  br label %v.33
v.33:
  %v.34 = phi i1 [ true, %v.21 ], [ %v.32, %v.27 ]
  %v.35 = zext i1 %v.34 to i8
  store i8 %v.35, ptr %v.10, align 1
  %v.36 = load i8, ptr %v.10, align 1
  %v.37 = trunc i8 %v.36 to i1
  br i1 %v.37, label %v.42, label %v.38
v.38:
  %v.39 = load i8, ptr %v.7, align 1
  %v.40 = trunc i8 %v.39 to i1
  %v.41 = xor i1 %v.40, true
  br label %v.42
v.42:
  %v.43 = phi i1 [ false, %v.33 ], [ %v.41, %v.38 ]
  %v.44 = zext i1 %v.43 to i32
  %v.45 = load i32, ptr %v.4, align 4
  %v.46 = add nsw i32 %v.45, %v.44
  store i32 %v.46, ptr %v.4, align 4
  %v.47 = load i8, ptr %v.10, align 1
  %v.48 = trunc i8 %v.47 to i1
  %v.49 = xor i1 %v.48, true
  %v.50 = zext i1 %v.49 to i8
  store i8 %v.50, ptr %v.7, align 1
  %v.51 = load i64, ptr %v.9, align 8
  %v.52 = getelementptr inbounds [16 x i8], ptr %v.3, i64 0, i64 %v.51
  %v.53 = load i8, ptr %v.52, align 1
  %v.54 = sext i8 %v.53 to i32
  %v.55 = icmp eq i32 %v.54, 10
  %v.56 = zext i1 %v.55 to i32
  %v.57 = load i32, ptr %v.5, align 4
  %v.58 = add nsw i32 %v.57, %v.56
  store i32 %v.58, ptr %v.5, align 4
  br label %v.59
v.59:
  %v.60 = load i64, ptr %v.9, align 8
  %v.61 = add i64 %v.60, 1
  store i64 %v.61, ptr %v.9, align 8
  br label %v.17, !llvm.loop !6
v.62:
  br label %v.63
v.63:
  %v.64 = load i64, ptr %v.8, align 8
  %v.65 = trunc i64 %v.64 to i32
  %v.66 = load i32, ptr %v.6, align 4
  %v.67 = add nsw i32 %v.66, %v.65
  store i32 %v.67, ptr %v.6, align 4
  br label %v.12, !llvm.loop !8
v.68:
  %v.69 = load i64, ptr %v.2, align 8
  %v.70 = call i32 @pthread_join(i64 noundef %v.69, ptr noundef null)
  %v.71 = load i32, ptr %v.5, align 4
  %v.72 = load i32, ptr %v.4, align 4
  %v.73 = load i32, ptr %v.6, align 4
  %pg.print.wide.1 = sext i32 %v.71 to i64
  call void @pg_print(i64 %pg.print.wide.1)
  %pg.print.count.3 = call i32 @pg_print_text(ptr @pg.print.text.2)
  %pg.print.wide.4 = sext i32 %v.72 to i64
  call void @pg_print(i64 %pg.print.wide.4)
  %pg.print.count.6 = call i32 @pg_print_text(ptr @pg.print.text.5)
  %pg.print.wide.7 = sext i32 %v.73 to i64
  call void @pg_out(i64 %pg.print.wide.7)
  ret i32 0
}

define internal ptr @producer(ptr noundef %v.0) #0 {
v.1:
  %v.2 = alloca ptr, align 8
  %v.3 = alloca i64, align 8
  %v.4 = alloca i64, align 8
  %v.5 = alloca i64, align 8
  store ptr %v.0, ptr %v.2, align 8
  %v.6 = call i64 @pg_in(i64 noundef 0)
  %v.7 = icmp sgt i64 %v.6, 0
  br i1 %v.7, label %v.8, label %v.13
v.8:
  %v.9 = call i64 @pg_in(i64 noundef 0)
  %v.10 = icmp sle i64 %v.9, 16
  br i1 %v.10, label %v.11, label %v.13
v.11:
  %v.12 = call i64 @pg_in(i64 noundef 0)
  br label %v.14
v.13:
  br label %v.14
v.14:
  %v.15 = phi i64 [ %v.12, %v.11 ], [ 16, %v.13 ]
  store i64 %v.15, ptr %v.3, align 8
  %v.16 = call i64 @strlen(ptr noundef @text) #6
  store i64 %v.16, ptr %v.4, align 8
  store i64 0, ptr %v.5, align 8
  br label %v.17
v.17:
  %v.18 = load i64, ptr %v.5, align 8
  %v.19 = load i64, ptr %v.4, align 8
  %v.20 = icmp ult i64 %v.18, %v.19
  br i1 %v.20, label %v.21, label %v.41
v.21:
  %v.22 = load i64, ptr %v.5, align 8
  %v.23 = getelementptr inbounds i8, ptr @text, i64 %v.22
  %v.24 = load i64, ptr %v.4, align 8
  %v.25 = load i64, ptr %v.5, align 8
  %v.26 = sub i64 %v.24, %v.25
  %v.27 = load i64, ptr %v.3, align 8
  %v.28 = icmp ult i64 %v.26, %v.27
  br i1 %v.28, label %v.29, label %v.33
v.29:
  %v.30 = load i64, ptr %v.4, align 8
  %v.31 = load i64, ptr %v.5, align 8
  %v.32 = sub i64 %v.30, %v.31
  br label %v.35
v.33:
  %v.34 = load i64, ptr %v.3, align 8
  br label %v.35
v.35:
  %v.36 = phi i64 [ %v.32, %v.29 ], [ %v.34, %v.33 ]
  call void @hand_over(ptr noundef %v.23, i64 noundef %v.36)
  br label %v.37
v.37:
  %v.38 = load i64, ptr %v.3, align 8
  %v.39 = load i64, ptr %v.5, align 8
  %v.40 = add i64 %v.39, %v.38
  store i64 %v.40, ptr %v.5, align 8
  br label %v.17, !llvm.loop !9
v.41:
  call void @hand_over(ptr noundef @text, i64 noundef 0)
  ret ptr null
}

define internal i64 @take(ptr noundef %v.0) #0 {
v.1:
  %v.2 = alloca ptr, align 8
  %v.3 = alloca i64, align 8
  store ptr %v.0, ptr %v.2, align 8
  %v.4 = call i32 @pthread_mutex_lock(ptr noundef @lock) #5
  br label %v.5
v.5:
  %v.6 = load i8, ptr @full, align 1
  %v.7 = trunc i8 %v.6 to i1
  br i1 %v.7, label %v.12, label %v.8
v.8:
  %v.9 = load i8, ptr @closed, align 1
  %v.10 = trunc i8 %v.9 to i1
  %v.11 = xor i1 %v.10, true
  br label %v.12
v.12:
  %v.13 = phi i1 [ false, %v.5 ], [ %v.11, %v.8 ]
  br i1 %v.13, label %v.14, label %v.16
v.14:
  %v.15 = call i32 @pthread_cond_wait(ptr noundef @changed, ptr noundef @lock)
  br label %v.5, !llvm.loop !10
v.16:
  %v.17 = load i8, ptr @full, align 1
  %v.18 = trunc i8 %v.17 to i1
  br i1 %v.18, label %v.19, label %v.21
v.19:
  %v.20 = load i64, ptr @length, align 8
  br label %v.22
v.21:
  br label %v.22
v.22:
  %v.23 = phi i64 [ %v.20, %v.19 ], [ 0, %v.21 ]
  store i64 %v.23, ptr %v.3, align 8
  %v.24 = load ptr, ptr %v.2, align 8
  %v.25 = load i64, ptr %v.3, align 8
  call void @pg.copy(ptr %v.24, ptr @piece, i64 %v.25)
  store i8 0, ptr @full, align 1
  %v.26 = call i32 @pthread_cond_broadcast(ptr noundef @changed) #5
  %v.27 = call i32 @pthread_mutex_unlock(ptr noundef @lock) #5
  %v.28 = load i64, ptr %v.3, align 8
  ret i64 %v.28
}

define internal void @hand_over(ptr noundef %v.0, i64 noundef %v.1) #0 {
v.2:
  %v.3 = alloca ptr, align 8
  %v.4 = alloca i64, align 8
  store ptr %v.0, ptr %v.3, align 8
  store i64 %v.1, ptr %v.4, align 8
  %v.5 = call i32 @pthread_mutex_lock(ptr noundef @lock) #5
  br label %v.6
v.6:
  %v.7 = load i8, ptr @full, align 1
  %v.8 = trunc i8 %v.7 to i1
  br i1 %v.8, label %v.9, label %v.11
v.9:
  %v.10 = call i32 @pthread_cond_wait(ptr noundef @changed, ptr noundef @lock)
  br label %v.6, !llvm.loop !11
v.11:
  %v.12 = load ptr, ptr %v.3, align 8
  %v.13 = load i64, ptr %v.4, align 8
  call void @pg.copy(ptr @piece, ptr %v.12, i64 %v.13)
  %v.14 = load i64, ptr %v.4, align 8
  store i64 %v.14, ptr @length, align 8
  %v.15 = load i64, ptr %v.4, align 8
  %v.16 = icmp ugt i64 %v.15, 0
  %v.17 = zext i1 %v.16 to i8
  store i8 %v.17, ptr @full, align 1
  %v.18 = load i64, ptr %v.4, align 8
  %v.19 = icmp eq i64 %v.18, 0
  %v.20 = zext i1 %v.19 to i8
  store i8 %v.20, ptr @closed, align 1
  %v.21 = call i32 @pthread_cond_broadcast(ptr noundef @changed) #5
  %v.22 = call i32 @pthread_mutex_unlock(ptr noundef @lock) #5
  ret void
}

define dso_local i32 @pg_print_text(ptr noundef %v.0) {
v.1:
  %v.2 = alloca ptr, align 8
  %v.3 = alloca i32, align 4
  store ptr %v.0, ptr %v.2, align 8
  store i32 0, ptr %v.3, align 4
  br label %v.4
v.4:
  %v.5 = load ptr, ptr %v.2, align 8
  %v.6 = load i32, ptr %v.3, align 4
  %v.7 = sext i32 %v.6 to i64
  %v.8 = getelementptr inbounds i8, ptr %v.5, i64 %v.7
  %v.9 = load i8, ptr %v.8, align 1
  %v.10 = icmp ne i8 %v.9, 0
  br i1 %v.10, label %v.11, label %v.22
v.11:
  %v.12 = load ptr, ptr %v.2, align 8
  %v.13 = load i32, ptr %v.3, align 4
  %v.14 = sext i32 %v.13 to i64
  %v.15 = getelementptr inbounds i8, ptr %v.12, i64 %v.14
  %v.16 = load i8, ptr %v.15, align 1
  %v.17 = sext i8 %v.16 to i32
  %v.18 = call i32 @putchar(i32 noundef %v.17)
  br label %v.19
v.19:
  %v.20 = load i32, ptr %v.3, align 4
  %v.21 = add nsw i32 %v.20, 1
  store i32 %v.21, ptr %v.3, align 4
  br label %v.4
v.22:
  %v.23 = load i32, ptr %v.3, align 4
  ret i32 %v.23
}

define dso_local i64 @strlen(ptr noundef %v.0) {
v.1:
  %v.2 = alloca ptr, align 8
  %v.3 = alloca i64, align 8
  store ptr %v.0, ptr %v.2, align 8
  store volatile i64 0, ptr %v.3, align 8
  br label %v.4
v.4:
  %v.5 = load ptr, ptr %v.2, align 8
  %v.6 = load volatile i64, ptr %v.3, align 8
  %v.7 = getelementptr inbounds i8, ptr %v.5, i64 %v.6
  %v.8 = load i8, ptr %v.7, align 1
  %v.9 = icmp ne i8 %v.8, 0
  br i1 %v.9, label %v.10, label %v.13
v.10:
  %v.11 = load volatile i64, ptr %v.3, align 8
  %v.12 = add i64 %v.11, 1
  store volatile i64 %v.12, ptr %v.3, align 8
  br label %v.4
v.13:
  %v.14 = load volatile i64, ptr %v.3, align 8
  ret i64 %v.14
}

define void @pg.copy(ptr %to, ptr %from, i64 %count) {
start:
  br label %test
test:
  %i = phi i64 [ 0, %start ], [ %next, %body ]
  %more = icmp ult i64 %i, %count
  br i1 %more, label %body, label %end
body:
  %source = getelementptr i8, ptr %from, i64 %i
  %part = load i8, ptr %source
  %place = getelementptr i8, ptr %to, i64 %i
  store i8 %part, ptr %place
  %next = add i64 %i, 1
  br label %test
end:
  ret void
}

declare i32 @pthread_create(ptr noundef, ptr noundef, ptr noundef, ptr noundef) #1
declare i32 @pthread_join(i64 noundef, ptr noundef) #2
declare i64 @pg_in(i64 noundef) #2
declare i32 @pthread_mutex_lock(ptr noundef) #1
declare i32 @pthread_cond_wait(ptr noundef, ptr noundef) #2
declare i32 @pthread_cond_broadcast(ptr noundef) #1
declare i32 @pthread_mutex_unlock(ptr noundef) #1
declare void @pg_print(i64)
declare void @pg_out(i64)
declare i32 @putchar(i32 noundef)

attributes #0 = { noinline nounwind optnone uwtable "frame-pointer"="all" "min-legal-vector-width"="0" "no-trapping-math"="true" "stack-protector-buffer-size"="8" "target-cpu"="x86-64" "target-features"="+cx8,+fxsr,+mmx,+sse,+sse2,+x87" "tune-cpu"="generic" }
attributes #1 = { nounwind "frame-pointer"="all" "no-trapping-math"="true" "stack-protector-buffer-size"="8" "target-cpu"="x86-64" "target-features"="+cx8,+fxsr,+mmx,+sse,+sse2,+x87" "tune-cpu"="generic" }
attributes #2 = { "frame-pointer"="all" "no-trapping-math"="true" "stack-protector-buffer-size"="8" "target-cpu"="x86-64" "target-features"="+cx8,+fxsr,+mmx,+sse,+sse2,+x87" "tune-cpu"="generic" }
attributes #3 = { nounwind willreturn memory(read) "frame-pointer"="all" "no-trapping-math"="true" "stack-protector-buffer-size"="8" "target-cpu"="x86-64" "target-features"="+cx8,+fxsr,+mmx,+sse,+sse2,+x87" "tune-cpu"="generic" }
attributes #4 = { nocallback nofree nounwind willreturn memory(argmem: readwrite) }
attributes #5 = { nounwind }
attributes #6 = { nounwind willreturn memory(read) }
!llvm.module.flags = !{!0, !1, !2, !3, !4}
!llvm.ident = !{!5}
!0 = !{i32 1, !"wchar_size", i32 4}
!1 = !{i32 8, !"PIC Level", i32 2}
!2 = !{i32 7, !"PIE Level", i32 2}
!3 = !{i32 7, !"uwtable", i32 2}
!4 = !{i32 7, !"frame-pointer", i32 2}
!5 = !{!"Debian clang version 16.0.6 (15~deb12u1)"}
!6 = distinct !{!6, !7}
!7 = !{!"llvm.loop.mustprogress"}
!8 = distinct !{!8, !7}
!9 = distinct !{!9, !7}
!10 = distinct !{!10, !7}
!11 = distinct !{!11, !7}
