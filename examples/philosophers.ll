source_filename = "philosophers.c"
target datalayout = "e-m:e-p270:32:32-p271:32:32-p272:64:64-i64:64-f80:128-n8:16:32:64-S128"
target triple = "x86_64-pc-linux-gnu"

%union.pthread_mutex_t = type { %struct.__pthread_mutex_s }
%struct.__pthread_mutex_s = type { i32, i32, i32, i32, i32, i16, i16, %struct.__pthread_internal_list }
%struct.__pthread_internal_list = type { ptr, ptr }
%pg.struct.pthread_mutex_t = type { [5 x i64] }
%pg.struct.pthread_cond_t = type { [6 x i64] }
%pg.struct.pg_semaphore = type { %pg.struct.pthread_mutex_t, %pg.struct.pthread_cond_t, i64 }
%pg.struct.pg_lock = type { %pg.struct.pthread_mutex_t, ptr, i32, i32 }

@forks = internal global [5 x %union.pthread_mutex_t] zeroinitializer, align 16
@meals = internal global [5 x i32] zeroinitializer, align 16
@.str = private unnamed_addr constant [30 x i8] c"%d philosophers ate %d times\0A\00", align 1
@pg.print.text.2 = private constant [19 x i8] c" philosophers ate \00"
@pg.print.text.5 = private constant [8 x i8] c" times\0A\00"

define dso_local i32 @main() #0 {
v.0:
  %v.1 = alloca i32, align 4
  %v.2 = alloca [5 x i64], align 16
  %v.3 = alloca i32, align 4
  %v.4 = alloca i64, align 8
  %v.5 = alloca i32, align 4
  %v.6 = alloca i32, align 4
  store i32 0, ptr %v.1, align 4
  store i32 0, ptr %v.3, align 4
  br label %v.7
v.7:
  %v.8 = load i32, ptr %v.3, align 4
  %v.9 = icmp slt i32 %v.8, 5
  br i1 %v.9, label %v.10, label %v.18
v.10:
  %v.11 = load i32, ptr %v.3, align 4
  %v.12 = sext i32 %v.11 to i64
  %v.13 = getelementptr inbounds [5 x %union.pthread_mutex_t], ptr @forks, i64 0, i64 %v.12
  %v.14 = call i32 @pthread_mutex_init(ptr noundef %v.13, ptr noundef null) #3
  br label %v.15
v.15:
  %v.16 = load i32, ptr %v.3, align 4
  %v.17 = add nsw i32 %v.16, 1
  store i32 %v.17, ptr %v.3, align 4
  br label %v.7, !llvm.loop !6
v.18:
  store i64 0, ptr %v.4, align 8
  br label %v.19
v.19:
  %v.20 = load i64, ptr %v.4, align 8
  %v.21 = icmp slt i64 %v.20, 5
  br i1 %v.21, label %v.22, label %v.31
v.22:
  %v.23 = load i64, ptr %v.4, align 8
  %v.24 = getelementptr inbounds [5 x i64], ptr %v.2, i64 0, i64 %v.23
  %v.25 = load i64, ptr %v.4, align 8
  %v.26 = inttoptr i64 %v.25 to ptr
  %v.27 = call i32 @pthread_create(ptr noundef %v.24, ptr noundef null, ptr noundef @philosopher, ptr noundef %v.26) #3
  br label %v.28
v.28:
  %v.29 = load i64, ptr %v.4, align 8
  %v.30 = add nsw i64 %v.29, 1
  store i64 %v.30, ptr %v.4, align 8
  br label %v.19, !llvm.loop !8
v.31:
  store i32 0, ptr %v.5, align 4
  store i32 0, ptr %v.6, align 4
  br label %v.32
v.32:
  %v.33 = load i32, ptr %v.6, align 4
  %v.34 = icmp slt i32 %v.33, 5
  br i1 %v.34, label %v.35, label %v.50
v.35:
  %v.36 = load i32, ptr %v.6, align 4
  %v.37 = sext i32 %v.36 to i64
  %v.38 = getelementptr inbounds [5 x i64], ptr %v.2, i64 0, i64 %v.37
  %v.39 = load i64, ptr %v.38, align 8
  %v.40 = call i32 @pthread_join(i64 noundef %v.39, ptr noundef null)
  %v.41 = load i32, ptr %v.6, align 4
  %v.42 = sext i32 %v.41 to i64
  %v.43 = getelementptr inbounds [5 x i32], ptr @meals, i64 0, i64 %v.42
  %v.44 = load i32, ptr %v.43, align 4
  %v.45 = load i32, ptr %v.5, align 4
  %v.46 = add nsw i32 %v.45, %v.44
  store i32 %v.46, ptr %v.5, align 4
  br label %v.47
v.47:
  %v.48 = load i32, ptr %v.6, align 4
  %v.49 = add nsw i32 %v.48, 1
  store i32 %v.49, ptr %v.6, align 4
  br label %v.32, !llvm.loop !9
v.50:
  %v.51 = load i32, ptr %v.5, align 4
  %pg.print.wide.1 = sext i32 5 to i64
  call void @pg_print(i64 %pg.print.wide.1)
  %pg.print.count.3 = call i32 @pg_print_text(ptr @pg.print.text.2)
  %pg.print.wide.4 = sext i32 %v.51 to i64
  call void @pg_print(i64 %pg.print.wide.4)
  %pg.print.count.6 = call i32 @pg_print_text(ptr @pg.print.text.5)
  ret i32 0
}

define internal ptr @philosopher(ptr noundef %v.0) #0 {
v.1:
  %v.2 = alloca ptr, align 8
  %v.3 = alloca i32, align 4
  %v.4 = alloca i32, align 4
  %v.5 = alloca i32, align 4
  %v.6 = alloca i32, align 4
  %v.7 = alloca i64, align 8
  store ptr %v.0, ptr %v.2, align 8
  %v.8 = load ptr, ptr %v.2, align 8
  %v.9 = ptrtoint ptr %v.8 to i64
  %v.10 = trunc i64 %v.9 to i32
  store i32 %v.10, ptr %v.3, align 4
  %v.11 = load i32, ptr %v.3, align 4
  %v.12 = add nsw i32 %v.11, 1
  %v.13 = srem i32 %v.12, 5
  store i32 %v.13, ptr %v.4, align 4
  %v.14 = load i32, ptr %v.3, align 4
  %v.15 = load i32, ptr %v.4, align 4
  %v.16 = icmp slt i32 %v.14, %v.15
  br i1 %v.16, label %v.17, label %v.19
v.17:
  %v.18 = load i32, ptr %v.3, align 4
  br label %v.21
v.19:
  %v.20 = load i32, ptr %v.4, align 4
  br label %v.21
v.21:
  %v.22 = phi i32 [ %v.18, %v.17 ], [ %v.20, %v.19 ]
  store i32 %v.22, ptr %v.5, align 4
  %v.23 = load i32, ptr %v.3, align 4
  %v.24 = load i32, ptr %v.4, align 4
  %v.25 = icmp slt i32 %v.23, %v.24
  br i1 %v.25, label %v.26, label %v.28
v.26:
  %v.27 = load i32, ptr %v.4, align 4
  br label %v.30
v.28:
  %v.29 = load i32, ptr %v.3, align 4
  br label %v.30
v.30:
  %v.31 = phi i32 [ %v.27, %v.26 ], [ %v.29, %v.28 ]
  store i32 %v.31, ptr %v.6, align 4
  store i64 0, ptr %v.7, align 8
  br label %v.32
v.32:
  %v.33 = load i64, ptr %v.7, align 8
  %v.34 = call i64 @pg_in(i64 noundef 0)
  %v.35 = icmp slt i64 %v.33, %v.34
  br i1 %v.35, label %v.36, label %v.61
v.36:
  %v.37 = load i32, ptr %v.5, align 4
  %v.38 = sext i32 %v.37 to i64
  %v.39 = getelementptr inbounds [5 x %union.pthread_mutex_t], ptr @forks, i64 0, i64 %v.38
  %v.40 = call i32 @pthread_mutex_lock(ptr noundef %v.39) #3
  %v.41 = load i32, ptr %v.6, align 4
  %v.42 = sext i32 %v.41 to i64
  %v.43 = getelementptr inbounds [5 x %union.pthread_mutex_t], ptr @forks, i64 0, i64 %v.42
  %v.44 = call i32 @pthread_mutex_lock(ptr noundef %v.43) #3
  %v.45 = load i32, ptr %v.3, align 4
  %v.46 = sext i32 %v.45 to i64
  %v.47 = getelementptr inbounds [5 x i32], ptr @meals, i64 0, i64 %v.46
  %v.48 = load i32, ptr %v.47, align 4
  %v.49 = add nsw i32 %v.48, 1
  store i32 %v.49, ptr %v.47, align 4
  %v.50 = load i32, ptr %v.6, align 4
  %v.51 = sext i32 %v.50 to i64
  %v.52 = getelementptr inbounds [5 x %union.pthread_mutex_t], ptr @forks, i64 0, i64 %v.51
  %v.53 = call i32 @pthread_mutex_unlock(ptr noundef %v.52) #3
  %v.54 = load i32, ptr %v.5, align 4
  %v.55 = sext i32 %v.54 to i64
  %v.56 = getelementptr inbounds [5 x %union.pthread_mutex_t], ptr @forks, i64 0, i64 %v.55
  %v.57 = call i32 @pthread_mutex_unlock(ptr noundef %v.56) #3
  br label %v.58
v.58:
  %v.59 = load i64, ptr %v.7, align 8
  %v.60 = add nsw i64 %v.59, 1
  store i64 %v.60, ptr %v.7, align 8
  br label %v.32, !llvm.loop !10
v.61:
  ret ptr null
}

define dso_local i32 @pg_print_text(ptr noundef %v.0) {
v.1:
  %v.2 = alloca ptr, align 8
  %v.3 = alloca i32, align 4
  store ptr %v.0, ptr %v.2, align 8
  store i32 0, ptr %v.3, align 4
  br label %v.4
v.4:
  %v.5 = load ptr, ptr %v.2, align 8
  %v.6 = load i32, ptr %v.3, align 4
  %v.7 = sext i32 %v.6 to i64
  %v.8 = getelementptr inbounds i8, ptr %v.5, i64 %v.7
  %v.9 = load i8, ptr %v.8, align 1
  %v.10 = icmp ne i8 %v.9, 0
  br i1 %v.10, label %v.11, label %v.22
v.11:
  %v.12 = load ptr, ptr %v.2, align 8
  %v.13 = load i32, ptr %v.3, align 4
  %v.14 = sext i32 %v.13 to i64
  %v.15 = getelementptr inbounds i8, ptr %v.12, i64 %v.14
  %v.16 = load i8, ptr %v.15, align 1
  %v.17 = sext i8 %v.16 to i32
  %v.18 = call i32 @putchar(i32 noundef %v.17)
  br label %v.19
v.19:
  %v.20 = load i32, ptr %v.3, align 4
  %v.21 = add nsw i32 %v.20, 1
  store i32 %v.21, ptr %v.3, align 4
  br label %v.4
v.22:
  %v.23 = load i32, ptr %v.3, align 4
  ret i32 %v.23
}

declare i32 @pthread_mutex_init(ptr noundef, ptr noundef) #1
declare i32 @pthread_create(ptr noundef, ptr noundef, ptr noundef, ptr noundef) #1
declare i32 @pthread_join(i64 noundef, ptr noundef) #2
declare i64 @pg_in(i64 noundef) #2
declare i32 @pthread_mutex_lock(ptr noundef) #1
declare i32 @pthread_mutex_unlock(ptr noundef) #1
declare void @pg_print(i64)
declare i32 @putchar(i32 noundef)

attributes #0 = { noinline nounwind optnone uwtable "frame-pointer"="all" "min-legal-vector-width"="0" "no-trapping-math"="true" "stack-protector-buffer-size"="8" "target-cpu"="x86-64" "target-features"="+cx8,+fxsr,+mmx,+sse,+sse2,+x87" "tune-cpu"="generic" }
attributes #1 = { nounwind "frame-pointer"="all" "no-trapping-math"="true" "stack-protector-buffer-size"="8" "target-cpu"="x86-64" "target-features"="+cx8,+fxsr,+mmx,+sse,+sse2,+x87" "tune-cpu"="generic" }
attributes #2 = { "frame-pointer"="all" "no-trapping-math"="true" "stack-protector-buffer-size"="8" "target-cpu"="x86-64" "target-features"="+cx8,+fxsr,+mmx,+sse,+sse2,+x87" "tune-cpu"="generic" }
attributes #3 = { nounwind }
!llvm.module.flags = !{!0, !1, !2, !3, !4}
!llvm.ident = !{!5}
!0 = !{i32 1, !"wchar_size", i32 4}
!1 = !{i32 8, !"PIC Level", i32 2}
!2 = !{i32 7, !"PIE Level", i32 2}
!3 = !{i32 7, !"uwtable", i32 2}
!4 = !{i32 7, !"frame-pointer", i32 2}
!5 = !{!"Debian clang version 16.0.6 (15~deb12u1)"}
!6 = distinct !{!6, !7}
!7 = !{!"llvm.loop.mustprogress"}
!8 = distinct !{!8, !7}
!9 = distinct !{!9, !7}
!10 = distinct !{!10, !7}
