source_filename = "bank.c"
target datalayout = "e-m:e-p270:32:32-p271:32:32-p272:64:64-i64:64-f80:128-n8:16:32:64-S128"
target triple = "x86_64-pc-linux-gnu"

%struct.anon = type { %union.pthread_mutex_t, i64 }
%union.pthread_mutex_t = type { %struct.__pthread_mutex_s }
%struct.__pthread_mutex_s = type { i32, i32, i32, i32, i32, i16, i16, %struct.__pthread_internal_list }
%struct.__pthread_internal_list = type { ptr, ptr }
%pg.struct.pthread_mutex_t = type { [5 x i64] }
%pg.struct.pthread_cond_t = type { [6 x i64] }
%pg.struct.pg_semaphore = type { %pg.struct.pthread_mutex_t, %pg.struct.pthread_cond_t, i64 }
%pg.struct.pg_lock = type { %pg.struct.pthread_mutex_t, ptr, i32, i32 }

@accounts = internal global [4 x %struct.anon] zeroinitializer, align 16
@.str = private unnamed_addr constant [20 x i8] c"the bank holds %ld\0A\00", align 1
@pg.print.text.1 = private constant [16 x i8] c"the bank holds \00"

define dso_local i32 @main() #0 {
v.0:
  %v.1 = alloca i32, align 4
  %v.2 = alloca [3 x i64], align 16
  %v.3 = alloca i32, align 4
  %v.4 = alloca i64, align 8
  %v.5 = alloca i32, align 4
  %v.6 = alloca i64, align 8
  %v.7 = alloca i32, align 4
  store i32 0, ptr %v.1, align 4
  store i32 0, ptr %v.3, align 4
  br label %v.8
v.8:
  %v.9 = load i32, ptr %v.3, align 4
  %v.10 = icmp slt i32 %v.9, 4
  br i1 %v.10, label %v.11, label %v.24
v.11:
  %v.12 = load i32, ptr %v.3, align 4
  %v.13 = sext i32 %v.12 to i64
  %v.14 = getelementptr inbounds [4 x %struct.anon], ptr @accounts, i64 0, i64 %v.13
  %v.15 = getelementptr inbounds %struct.anon, ptr %v.14, i32 0, i32 0
  %v.16 = call i32 @pthread_mutex_init(ptr noundef %v.15, ptr noundef null) #3
  %v.17 = load i32, ptr %v.3, align 4
  %v.18 = sext i32 %v.17 to i64
  %v.19 = getelementptr inbounds [4 x %struct.anon], ptr @accounts, i64 0, i64 %v.18
  %v.20 = getelementptr inbounds %struct.anon, ptr %v.19, i32 0, i32 1
  store i64 100, ptr %v.20, align 8
  br label %v.21
v.21:
  %v.22 = load i32, ptr %v.3, align 4
  %v.23 = add nsw i32 %v.22, 1
  store i32 %v.23, ptr %v.3, align 4
  br label %v.8, !llvm.loop !6
v.24:
  store i64 0, ptr %v.4, align 8
  br label %v.25
v.25:
  %v.26 = load i64, ptr %v.4, align 8
  %v.27 = icmp slt i64 %v.26, 3
  br i1 %v.27, label %v.28, label %v.37
v.28:
  %v.29 = load i64, ptr %v.4, align 8
  %v.30 = getelementptr inbounds [3 x i64], ptr %v.2, i64 0, i64 %v.29
  %v.31 = load i64, ptr %v.4, align 8
  %v.32 = inttoptr i64 %v.31 to ptr
  %v.33 = call i32 @pthread_create(ptr noundef %v.30, ptr noundef null, ptr noundef @clerk, ptr noundef %v.32) #3
  br label %v.34
v.34:
  %v.35 = load i64, ptr %v.4, align 8
  %v.36 = add nsw i64 %v.35, 1
  store i64 %v.36, ptr %v.4, align 8
  br label %v.25, !llvm.loop !8
v.37:
  store i32 0, ptr %v.5, align 4
  br label %v.38
v.38:
  %v.39 = load i32, ptr %v.5, align 4
  %v.40 = icmp slt i32 %v.39, 3
  br i1 %v.40, label %v.41, label %v.50
v.41:
  %v.42 = load i32, ptr %v.5, align 4
  %v.43 = sext i32 %v.42 to i64
  %v.44 = getelementptr inbounds [3 x i64], ptr %v.2, i64 0, i64 %v.43
  %v.45 = load i64, ptr %v.44, align 8
  %v.46 = call i32 @pthread_join(i64 noundef %v.45, ptr noundef null)
  br label %v.47
v.47:
  %v.48 = load i32, ptr %v.5, align 4
  %v.49 = add nsw i32 %v.48, 1
  store i32 %v.49, ptr %v.5, align 4
  br label %v.38, !llvm.loop !9
v.50:
  store i64 0, ptr %v.6, align 8
  store i32 0, ptr %v.7, align 4
  br label %v.51
v.51:
  %v.52 = load i32, ptr %v.7, align 4
  %v.53 = icmp slt i32 %v.52, 4
  br i1 %v.53, label %v.54, label %v.65
v.54:
  %v.55 = load i32, ptr %v.7, align 4
  %v.56 = sext i32 %v.55 to i64
  %v.57 = getelementptr inbounds [4 x %struct.anon], ptr @accounts, i64 0, i64 %v.56
  %v.58 = getelementptr inbounds %struct.anon, ptr %v.57, i32 0, i32 1
  %v.59 = load i64, ptr %v.58, align 8
  %v.60 = load i64, ptr %v.6, align 8
  %v.61 = add nsw i64 %v.60, %v.59
  store i64 %v.61, ptr %v.6, align 8
  br label %v.62
v.62:
  %v.63 = load i32, ptr %v.7, align 4
  %v.64 = add nsw i32 %v.63, 1
  store i32 %v.64, ptr %v.7, align 4
  br label %v.51, !llvm.loop !10
v.65:
  %v.66 = load i64, ptr %v.6, align 8
  %pg.print.count.2 = call i32 @pg_print_text(ptr @pg.print.text.1)
  call void @pg_out(i64 %v.66)
  ret i32 0
}

define internal ptr @clerk(ptr noundef %v.0) #0 {
v.1:
  %v.2 = alloca ptr, align 8
  %v.3 = alloca i64, align 8
  %v.4 = alloca i32, align 4
  %v.5 = alloca i32, align 4
  store ptr %v.0, ptr %v.2, align 8
  store i64 0, ptr %v.3, align 8
  br label %v.6
v.6:
  %v.7 = load i64, ptr %v.3, align 8
  %v.8 = call i64 @pg_in_len()
  %v.9 = icmp slt i64 %v.7, %v.8
  br i1 %v.9, label %v.10, label %v.43
v.10:
  %v.11 = load ptr, ptr %v.2, align 8
  %v.12 = ptrtoint ptr %v.11 to i64
  %v.13 = load i64, ptr %v.3, align 8
  %v.14 = add nsw i64 %v.12, %v.13
  %v.15 = srem i64 %v.14, 4
  %v.16 = trunc i64 %v.15 to i32
  store i32 %v.16, ptr %v.4, align 4
  %v.17 = load i32, ptr %v.4, align 4
  %v.18 = add nsw i32 %v.17, 1
  %v.19 = srem i32 %v.18, 4
  store i32 %v.19, ptr %v.5, align 4
  %v.20 = load i32, ptr %v.4, align 4
  %v.21 = load i32, ptr %v.5, align 4
  call void @lock_both(i32 noundef %v.20, i32 noundef %v.21)
  %v.22 = load i64, ptr %v.3, align 8
  %v.23 = call i64 @pg_in(i64 noundef %v.22)
  %v.24 = load i32, ptr %v.4, align 4
  %v.25 = sext i32 %v.24 to i64
  %v.26 = getelementptr inbounds [4 x %struct.anon], ptr @accounts, i64 0, i64 %v.25
  %v.27 = getelementptr inbounds %struct.anon, ptr %v.26, i32 0, i32 1
  %v.28 = load i64, ptr %v.27, align 8
  %v.29 = sub nsw i64 %v.28, %v.23
  store i64 %v.29, ptr %v.27, align 8
  %v.30 = load i64, ptr %v.3, align 8
  %v.31 = call i64 @pg_in(i64 noundef %v.30)
  %v.32 = load i32, ptr %v.5, align 4
  %v.33 = sext i32 %v.32 to i64
  %v.34 = getelementptr inbounds [4 x %struct.anon], ptr @accounts, i64 0, i64 %v.33
  %v.35 = getelementptr inbounds %struct.anon, ptr %v.34, i32 0, i32 1
  %v.36 = load i64, ptr %v.35, align 8
  %v.37 = add nsw i64 %v.36, %v.31
  store i64 %v.37, ptr %v.35, align 8
  %v.38 = load i32, ptr %v.4, align 4
  %v.39 = load i32, ptr %v.5, align 4
  call void @unlock_both(i32 noundef %v.38, i32 noundef %v.39)
  br label %v.40
v.40:
  %v.41 = load i64, ptr %v.3, align 8
  %v.42 = add nsw i64 %v.41, 1
  store i64 %v.42, ptr %v.3, align 8
  br label %v.6, !llvm.loop !11
v.43:
  ret ptr null
}

define internal void @lock_both(i32 noundef %v.0, i32 noundef %v.1) #0 {
v.2:
  %v.3 = alloca i32, align 4
  %v.4 = alloca i32, align 4
  store i32 %v.0, ptr %v.3, align 4
  store i32 %v.1, ptr %v.4, align 4
  %v.5 = load i32, ptr %v.3, align 4
  %v.6 = load i32, ptr %v.4, align 4
  %v.7 = icmp slt i32 %v.5, %v.6
  br i1 %v.7, label %v.8, label %v.10
v.8:
  %v.9 = load i32, ptr %v.3, align 4
  br label %v.12
v.10:
  %v.11 = load i32, ptr %v.4, align 4
  br label %v.12
v.12:
  %v.13 = phi i32 [ %v.9, %v.8 ], [ %v.11, %v.10 ]
  %v.14 = sext i32 %v.13 to i64
  %v.15 = getelementptr inbounds [4 x %struct.anon], ptr @accounts, i64 0, i64 %v.14
  %v.16 = getelementptr inbounds %struct.anon, ptr %v.15, i32 0, i32 0
  %v.17 = call i32 @pthread_mutex_lock(ptr noundef %v.16) #3
  %v.18 = load i32, ptr %v.3, align 4
  %v.19 = load i32, ptr %v.4, align 4
  %v.20 = icmp slt i32 %v.18, %v.19
  br i1 %v.20, label %v.21, label %v.23
v.21:
  %v.22 = load i32, ptr %v.4, align 4
  br label %v.25
v.23:
  %v.24 = load i32, ptr %v.3, align 4
  br label %v.25
v.25:
  %v.26 = phi i32 [ %v.22, %v.21 ], [ %v.24, %v.23 ]
  %v.27 = sext i32 %v.26 to i64
  %v.28 = getelementptr inbounds [4 x %struct.anon], ptr @accounts, i64 0, i64 %v.27
  %v.29 = getelementptr inbounds %struct.anon, ptr %v.28, i32 0, i32 0
  %v.30 = call i32 @pthread_mutex_lock(ptr noundef %v.29) #3
  ret void
}

define internal void @unlock_both(i32 noundef %v.0, i32 noundef %v.1) #0 {
v.2:
  %v.3 = alloca i32, align 4
  %v.4 = alloca i32, align 4
  store i32 %v.0, ptr %v.3, align 4
  store i32 %v.1, ptr %v.4, align 4
  %v.5 = load i32, ptr %v.3, align 4
  %v.6 = sext i32 %v.5 to i64
  %v.7 = getelementptr inbounds [4 x %struct.anon], ptr @accounts, i64 0, i64 %v.6
  %v.8 = getelementptr inbounds %struct.anon, ptr %v.7, i32 0, i32 0
  %v.9 = call i32 @pthread_mutex_unlock(ptr noundef %v.8) #3
  %v.10 = load i32, ptr %v.4, align 4
  %v.11 = sext i32 %v.10 to i64
  %v.12 = getelementptr inbounds [4 x %struct.anon], ptr @accounts, i64 0, i64 %v.11
  %v.13 = getelementptr inbounds %struct.anon, ptr %v.12, i32 0, i32 0
  %v.14 = call i32 @pthread_mutex_unlock(ptr noundef %v.13) #3
  ret void
}

define dso_local i32 @pg_print_text(ptr noundef %v.0) {
v.1:
  %v.2 = alloca ptr, align 8
  %v.3 = alloca i32, align 4
  store ptr %v.0, ptr %v.2, align 8
  store i32 0, ptr %v.3, align 4
  br label %v.4
v.4:
  %v.5 = load ptr, ptr %v.2, align 8
  %v.6 = load i32, ptr %v.3, align 4
  %v.7 = sext i32 %v.6 to i64
  %v.8 = getelementptr inbounds i8, ptr %v.5, i64 %v.7
  %v.9 = load i8, ptr %v.8, align 1
  %v.10 = icmp ne i8 %v.9, 0
  br i1 %v.10, label %v.11, label %v.22
v.11:
  %v.12 = load ptr, ptr %v.2, align 8
  %v.13 = load i32, ptr %v.3, align 4
  %v.14 = sext i32 %v.13 to i64
  %v.15 = getelementptr inbounds i8, ptr %v.12, i64 %v.14
  %v.16 = load i8, ptr %v.15, align 1
  %v.17 = sext i8 %v.16 to i32
  %v.18 = call i32 @putchar(i32 noundef %v.17)
  br label %v.19
v.19:
  %v.20 = load i32, ptr %v.3, align 4
  %v.21 = add nsw i32 %v.20, 1
  store i32 %v.21, ptr %v.3, align 4
  br label %v.4
v.22:
  %v.23 = load i32, ptr %v.3, align 4
  ret i32 %v.23
}

declare i32 @pthread_mutex_init(ptr noundef, ptr noundef) #1
declare i32 @pthread_create(ptr noundef, ptr noundef, ptr noundef, ptr noundef) #1
declare i32 @pthread_join(i64 noundef, ptr noundef) #2
declare i64 @pg_in_len() #2
declare i64 @pg_in(i64 noundef) #2
declare i32 @pthread_mutex_lock(ptr noundef) #1
declare i32 @pthread_mutex_unlock(ptr noundef) #1
declare void @pg_out(i64)
declare i32 @putchar(i32 noundef)

attributes #0 = { noinline nounwind optnone uwtable "frame-pointer"="all" "min-legal-vector-width"="0" "no-trapping-math"="true" "stack-protector-buffer-size"="8" "target-cpu"="x86-64" "target-features"="+cx8,+fxsr,+mmx,+sse,+sse2,+x87" "tune-cpu"="generic" }
attributes #1 = { nounwind "frame-pointer"="all" "no-trapping-math"="true" "stack-protector-buffer-size"="8" "target-cpu"="x86-64" "target-features"="+cx8,+fxsr,+mmx,+sse,+sse2,+x87" "tune-cpu"="generic" }
attributes #2 = { "frame-pointer"="all" "no-trapping-math"="true" "stack-protector-buffer-size"="8" "target-cpu"="x86-64" "target-features"="+cx8,+fxsr,+mmx,+sse,+sse2,+x87" "tune-cpu"="generic" }
attributes #3 = { nounwind }
!llvm.module.flags = !{!0, !1, !2, !3, !4}
!llvm.ident = !{!5}
!0 = !{i32 1, !"wchar_size", i32 4}
!1 = !{i32 8, !"PIC Level", i32 2}
!2 = !{i32 7, !"PIE Level", i32 2}
!3 = !{i32 7, !"uwtable", i32 2}
!4 = !{i32 7, !"frame-pointer", i32 2}
!5 = !{!"Debian clang version 16.0.6 (15~deb12u1)"}
!6 = distinct !{!6, !7}
!7 = !{!"llvm.loop.mustprogress"}
!8 = distinct !{!8, !7}
!9 = distinct !{!9, !7}
!10 = distinct !{!10, !7}
!11 = distinct !{!11, !7}
