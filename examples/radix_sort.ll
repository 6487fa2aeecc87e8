source_filename = "radix_sort.c"
target datalayout = "e-m:e-p270:32:32-p271:32:32-p272:64:64-i64:64-f80:128-n8:16:32:64-S128"
target triple = "x86_64-pc-linux-gnu"

%union.pthread_barrier_t = type { i64, [24 x i8] }

@count = internal global i64 0, align 8
@from = internal global ptr null, align 8
@to = internal global ptr null, align 8
@barrier = internal global %union.pthread_barrier_t zeroinitializer, align 8
@places = internal global [3 x [16 x i64]] zeroinitializer, align 16

define dso_local i32 @main() #0 {
v.0:
  %v.1 = alloca i32, align 4
  %v.2 = alloca i64, align 8
  %v.3 = alloca [3 x i64], align 16
  %v.4 = alloca i64, align 8
  %v.5 = alloca i32, align 4
  %v.6 = alloca i64, align 8
  store i32 0, ptr %v.1, align 4
  %v.7 = call i64 @pg_in_len()
  store i64 %v.7, ptr @count, align 8
  %v.8 = load i64, ptr @count, align 8
  %v.9 = mul i64 %v.8, 8
  %v.10 = call noalias ptr @malloc(i64 noundef %v.9) #4
  store ptr %v.10, ptr @from, align 8
  %v.11 = load i64, ptr @count, align 8
  %v.12 = mul i64 %v.11, 8
  %v.13 = call noalias ptr @malloc(i64 noundef %v.12) #4
  store ptr %v.13, ptr @to, align 8
  store i64 0, ptr %v.2, align 8
  br label %v.14
v.14:
  %v.15 = load i64, ptr %v.2, align 8
  %v.16 = load i64, ptr @count, align 8
  %v.17 = icmp slt i64 %v.15, %v.16
  br i1 %v.17, label %v.18, label %v.28
v.18:
  %v.19 = load i64, ptr %v.2, align 8
  %v.20 = call i64 @pg_in(i64 noundef %v.19)
  %v.21 = and i64 %v.20, 65535
  %v.22 = load ptr, ptr @from, align 8
  %v.23 = load i64, ptr %v.2, align 8
  %v.24 = getelementptr inbounds i64, ptr %v.22, i64 %v.23
  store i64 %v.21, ptr %v.24, align 8
  br label %v.25
v.25:
  %v.26 = load i64, ptr %v.2, align 8
  %v.27 = add nsw i64 %v.26, 1
  store i64 %v.27, ptr %v.2, align 8
  br label %v.14, !llvm.loop !6
v.28:
  %v.29 = call i32 @pthread_barrier_init(ptr noundef @barrier, ptr noundef null, i32 noundef 3) #5
  store i64 0, ptr %v.4, align 8
  br label %v.30
v.30:
  %v.31 = load i64, ptr %v.4, align 8
  %v.32 = icmp slt i64 %v.31, 3
  br i1 %v.32, label %v.33, label %v.42
v.33:
  %v.34 = load i64, ptr %v.4, align 8
  %v.35 = getelementptr inbounds [3 x i64], ptr %v.3, i64 0, i64 %v.34
  %v.36 = load i64, ptr %v.4, align 8
  %v.37 = inttoptr i64 %v.36 to ptr
  %v.38 = call i32 @pthread_create(ptr noundef %v.35, ptr noundef null, ptr noundef @sort, ptr noundef %v.37) #5
  br label %v.39
v.39:
  %v.40 = load i64, ptr %v.4, align 8
  %v.41 = add nsw i64 %v.40, 1
  store i64 %v.41, ptr %v.4, align 8
  br label %v.30, !llvm.loop !8
v.42:
  store i32 0, ptr %v.5, align 4
  br label %v.43
v.43:
  %v.44 = load i32, ptr %v.5, align 4
  %v.45 = icmp slt i32 %v.44, 3
  br i1 %v.45, label %v.46, label %v.55
v.46:
  %v.47 = load i32, ptr %v.5, align 4
  %v.48 = sext i32 %v.47 to i64
  %v.49 = getelementptr inbounds [3 x i64], ptr %v.3, i64 0, i64 %v.48
  %v.50 = load i64, ptr %v.49, align 8
  %v.51 = call i32 @pthread_join(i64 noundef %v.50, ptr noundef null)
  br label %v.52
v.52:
  %v.53 = load i32, ptr %v.5, align 4
  %v.54 = add nsw i32 %v.53, 1
  store i32 %v.54, ptr %v.5, align 4
  br label %v.43, !llvm.loop !9
v.55:
  store i64 0, ptr %v.6, align 8
  br label %v.56
v.56:
  %v.57 = load i64, ptr %v.6, align 8
  %v.58 = load i64, ptr @count, align 8
  %v.59 = icmp slt i64 %v.57, %v.58
  br i1 %v.59, label %v.60, label %v.68
v.60:
  %v.61 = load ptr, ptr @from, align 8
  %v.62 = load i64, ptr %v.6, align 8
  %v.63 = getelementptr inbounds i64, ptr %v.61, i64 %v.62
  %v.64 = load i64, ptr %v.63, align 8
  call void @pg_out(i64 noundef %v.64)
  br label %v.65
v.65:
  %v.66 = load i64, ptr %v.6, align 8
  %v.67 = add nsw i64 %v.66, 1
  store i64 %v.67, ptr %v.6, align 8
  br label %v.56, !llvm.loop !10
v.68:
  ret i32 0
}

define internal ptr @sort(ptr noundef %v.0) #0 {
v.1:
  %v.2 = alloca ptr, align 8
  %v.3 = alloca i64, align 8
  %v.4 = alloca i64, align 8
  %v.5 = alloca i64, align 8
  %v.6 = alloca i32, align 4
  %v.7 = alloca i64, align 8
  %v.8 = alloca ptr, align 8
  store ptr %v.0, ptr %v.2, align 8
  %v.9 = load ptr, ptr %v.2, align 8
  %v.10 = ptrtoint ptr %v.9 to i64
  store i64 %v.10, ptr %v.3, align 8
  %v.11 = load i64, ptr @count, align 8
  %v.12 = load i64, ptr %v.3, align 8
  %v.13 = mul nsw i64 %v.11, %v.12
  %v.14 = sdiv i64 %v.13, 3
  store i64 %v.14, ptr %v.4, align 8
  %v.15 = load i64, ptr @count, align 8
  %v.16 = load i64, ptr %v.3, align 8
  %v.17 = add nsw i64 %v.16, 1
  %v.18 = mul nsw i64 %v.15, %v.17
  %v.19 = sdiv i64 %v.18, 3
  store i64 %v.19, ptr %v.5, align 8
  store i32 0, ptr %v.6, align 4
  br label %v.20
v.20:
  %v.21 = load i32, ptr %v.6, align 4
  %v.22 = icmp slt i32 %v.21, 4
  br i1 %v.22, label %v.23, label %v.72
v.23:
  %v.24 = load i64, ptr %v.3, align 8
  %v.25 = load i64, ptr %v.4, align 8
  %v.26 = load i64, ptr %v.5, align 8
  %v.27 = load i32, ptr %v.6, align 4
  call void @count_digits(i64 noundef %v.24, i64 noundef %v.25, i64 noundef %v.26, i32 noundef %v.27)
  %v.28 = call i32 @pthread_barrier_wait(ptr noundef @barrier) #5
  %v.29 = icmp eq i32 %v.28, -1
  br i1 %v.29, label %v.30, label %v.31
v.30:
  call void @find_places()
  br label %v.31
v.31:
  %v.32 = call i32 @pthread_barrier_wait(ptr noundef @barrier) #5
  %v.33 = load i64, ptr %v.4, align 8
  store i64 %v.33, ptr %v.7, align 8
  br label %v.34
v.34:
  %v.35 = load i64, ptr %v.7, align 8
  %v.36 = load i64, ptr %v.5, align 8
  %v.37 = icmp slt i64 %v.35, %v.36
  br i1 %v.37, label %v.38, label %v.60
v.38:
  %v.39 = load ptr, ptr @from, align 8
  %v.40 = load i64, ptr %v.7, align 8
  %v.41 = getelementptr inbounds i64, ptr %v.39, i64 %v.40
  %v.42 = load i64, ptr %v.41, align 8
  %v.43 = load ptr, ptr @to, align 8
  %v.44 = load i64, ptr %v.3, align 8
  %v.45 = getelementptr inbounds [3 x [16 x i64]], ptr @places, i64 0, i64 %v.44
  %v.46 = load ptr, ptr @from, align 8
  %v.47 = load i64, ptr %v.7, align 8
  %v.48 = getelementptr inbounds i64, ptr %v.46, i64 %v.47
  %v.49 = load i64, ptr %v.48, align 8
  %v.50 = load i32, ptr %v.6, align 4
  %v.51 = call i32 @digit(i64 noundef %v.49, i32 noundef %v.50)
  %v.52 = sext i32 %v.51 to i64
  %v.53 = getelementptr inbounds [16 x i64], ptr %v.45, i64 0, i64 %v.52
  %v.54 = load i64, ptr %v.53, align 8
  %v.55 = add nsw i64 %v.54, 1
  store i64 %v.55, ptr %v.53, align 8
  %v.56 = getelementptr inbounds i64, ptr %v.43, i64 %v.54
  store i64 %v.42, ptr %v.56, align 8
  br label %v.57
v.57:
  %v.58 = load i64, ptr %v.7, align 8
  %v.59 = add nsw i64 %v.58, 1
  store i64 %v.59, ptr %v.7, align 8
  br label %v.34, !llvm.loop !11
v.60:
  %v.61 = call i32 @pthread_barrier_wait(ptr noundef @barrier) #5
  %v.62 = icmp eq i32 %v.61, -1
  br i1 %v.62, label %v.63, label %v.67
v.63:
  %v.64 = load ptr, ptr @from, align 8
  store ptr %v.64, ptr %v.8, align 8
  %v.65 = load ptr, ptr @to, align 8
  store ptr %v.65, ptr @from, align 8
  %v.66 = load ptr, ptr %v.8, align 8
  store ptr %v.66, ptr @to, align 8
  br label %v.67
v.67:
  %v.68 = call i32 @pthread_barrier_wait(ptr noundef @barrier) #5
  br label %v.69
v.69:
  %v.70 = load i32, ptr %v.6, align 4
  %v.71 = add nsw i32 %v.70, 1
  store i32 %v.71, ptr %v.6, align 4
  br label %v.20, !llvm.loop !12
v.72:
  ret ptr null
}

define internal void @count_digits(i64 noundef %v.0, i64 noundef %v.1, i64 noundef %v.2, i32 noundef %v.3) #0 {
v.4:
  %v.5 = alloca i64, align 8
  %v.6 = alloca i64, align 8
  %v.7 = alloca i64, align 8
  %v.8 = alloca i32, align 4
  %v.9 = alloca i32, align 4
  %v.10 = alloca i64, align 8
  store i64 %v.0, ptr %v.5, align 8
  store i64 %v.1, ptr %v.6, align 8
  store i64 %v.2, ptr %v.7, align 8
  store i32 %v.3, ptr %v.8, align 4
  store i32 0, ptr %v.9, align 4
  br label %v.11
v.11:
  %v.12 = load i32, ptr %v.9, align 4
  %v.13 = icmp slt i32 %v.12, 16
  br i1 %v.13, label %v.14, label %v.23
v.14:
  %v.15 = load i64, ptr %v.5, align 8
  %v.16 = getelementptr inbounds [3 x [16 x i64]], ptr @places, i64 0, i64 %v.15
  %v.17 = load i32, ptr %v.9, align 4
  %v.18 = sext i32 %v.17 to i64
  %v.19 = getelementptr inbounds [16 x i64], ptr %v.16, i64 0, i64 %v.18
  store i64 0, ptr %v.19, align 8
  br label %v.20
v.20:
  %v.21 = load i32, ptr %v.9, align 4
  %v.22 = add nsw i32 %v.21, 1
  store i32 %v.22, ptr %v.9, align 4
  br label %v.11, !llvm.loop !13
v.23:
  %v.24 = load i64, ptr %v.6, align 8
  store i64 %v.24, ptr %v.10, align 8
  br label %v.25
v.25:
  %v.26 = load i64, ptr %v.10, align 8
  %v.27 = load i64, ptr %v.7, align 8
  %v.28 = icmp slt i64 %v.26, %v.27
  br i1 %v.28, label %v.29, label %v.45
v.29:
  %v.30 = load i64, ptr %v.5, align 8
  %v.31 = getelementptr inbounds [3 x [16 x i64]], ptr @places, i64 0, i64 %v.30
  %v.32 = load ptr, ptr @from, align 8
  %v.33 = load i64, ptr %v.10, align 8
  %v.34 = getelementptr inbounds i64, ptr %v.32, i64 %v.33
  %v.35 = load i64, ptr %v.34, align 8
  %v.36 = load i32, ptr %v.8, align 4
  %v.37 = call i32 @digit(i64 noundef %v.35, i32 noundef %v.36)
  %v.38 = sext i32 %v.37 to i64
  %v.39 = getelementptr inbounds [16 x i64], ptr %v.31, i64 0, i64 %v.38
  %v.40 = load i64, ptr %v.39, align 8
  %v.41 = add nsw i64 %v.40, 1
  store i64 %v.41, ptr %v.39, align 8
  br label %v.42
v.42:
  %v.43 = load i64, ptr %v.10, align 8
  %v.44 = add nsw i64 %v.43, 1
  store i64 %v.44, ptr %v.10, align 8
  br label %v.25, !llvm.loop !14
v.45:
  ret void
}

define internal void @find_places() #0 {
v.0:
  %v.1 = alloca i64, align 8
  %v.2 = alloca i32, align 4
  %v.3 = alloca i32, align 4
  %v.4 = alloca i64, align 8
  store i64 0, ptr %v.1, align 8
  store i32 0, ptr %v.2, align 4
  br label %v.5
v.5:
  %v.6 = load i32, ptr %v.2, align 4
  %v.7 = icmp slt i32 %v.6, 16
  br i1 %v.7, label %v.8, label %v.37
v.8:
  store i32 0, ptr %v.3, align 4
  br label %v.9
v.9:
  %v.10 = load i32, ptr %v.3, align 4
  %v.11 = icmp slt i32 %v.10, 3
  br i1 %v.11, label %v.12, label %v.33
v.12:
  %v.13 = load i32, ptr %v.3, align 4
  %v.14 = sext i32 %v.13 to i64
  %v.15 = getelementptr inbounds [3 x [16 x i64]], ptr @places, i64 0, i64 %v.14
  %v.16 = load i32, ptr %v.2, align 4
  %v.17 = sext i32 %v.16 to i64
  %v.18 = getelementptr inbounds [16 x i64], ptr %v.15, i64 0, i64 %v.17
  %v.19 = load i64, ptr %v.18, align 8
  store i64 %v.19, ptr %v.4, align 8
  %v.20 = load i64, ptr %v.1, align 8
  %v.21 = load i32, ptr %v.3, align 4
  %v.22 = sext i32 %v.21 to i64
  %v.23 = getelementptr inbounds [3 x [16 x i64]], ptr @places, i64 0, i64 %v.22
  %v.24 = load i32, ptr %v.2, align 4
  %v.25 = sext i32 %v.24 to i64
  %v.26 = getelementptr inbounds [16 x i64], ptr %v.23, i64 0, i64 %v.25
  store i64 %v.20, ptr %v.26, align 8
  %v.27 = load i64, ptr %v.4, align 8
  %v.28 = load i64, ptr %v.1, align 8
  %v.29 = add nsw i64 %v.28, %v.27
  store i64 %v.29, ptr %v.1, align 8
  br label %v.30
v.30:
  %v.31 = load i32, ptr %v.3, align 4
  %v.32 = add nsw i32 %v.31, 1
  store i32 %v.32, ptr %v.3, align 4
  br label %v.9, !llvm.loop !15
v.33:
  br label %v.34
v.34:
  %v.35 = load i32, ptr %v.2, align 4
  %v.36 = add nsw i32 %v.35, 1
  store i32 %v.36, ptr %v.2, align 4
  br label %v.5, !llvm.loop !16
v.37:
  ret void
}

define internal i32 @digit(i64 noundef %v.0, i32 noundef %v.1) #0 {
v.2:
  %v.3 = alloca i64, align 8
  %v.4 = alloca i32, align 4
  store i64 %v.0, ptr %v.3, align 8
  store i32 %v.1, ptr %v.4, align 4
  %v.5 = load i64, ptr %v.3, align 8
  %v.6 = load i32, ptr %v.4, align 4
  %v.7 = mul nsw i32 4, %v.6
  %v.8 = zext i32 %v.7 to i64
  %v.9 = lshr i64 %v.5, %v.8
  %v.10 = and i64 %v.9, 15
  %v.11 = trunc i64 %v.10 to i32
  ret i32 %v.11
}

declare i64 @pg_in_len() #1
declare noalias ptr @malloc(i64 noundef) #2
declare i64 @pg_in(i64 noundef) #1
declare i32 @pthread_barrier_init(ptr noundef, ptr noundef, i32 noundef) #3
declare i32 @pthread_create(ptr noundef, ptr noundef, ptr noundef, ptr noundef) #3
declare i32 @pthread_join(i64 noundef, ptr noundef) #1
declare void @pg_out(i64 noundef) #1
declare i32 @pthread_barrier_wait(ptr noundef) #3

attributes #0 = { noinline nounwind optnone uwtable "frame-pointer"="all" "min-legal-vector-width"="0" "no-trapping-math"="true" "stack-protector-buffer-size"="8" "target-cpu"="x86-64" "target-features"="+cx8,+fxsr,+mmx,+sse,+sse2,+x87" "tune-cpu"="generic" }
attributes #1 = { "frame-pointer"="all" "no-trapping-math"="true" "stack-protector-buffer-size"="8" "target-cpu"="x86-64" "target-features"="+cx8,+fxsr,+mmx,+sse,+sse2,+x87" "tune-cpu"="generic" }
attributes #2 = { nounwind allocsize(0) "frame-pointer"="all" "no-trapping-math"="true" "stack-protector-buffer-size"="8" "target-cpu"="x86-64" "target-features"="+cx8,+fxsr,+mmx,+sse,+sse2,+x87" "tune-cpu"="generic" }
attributes #3 = { nounwind "frame-pointer"="all" "no-trapping-math"="true" "stack-protector-buffer-size"="8" "target-cpu"="x86-64" "target-features"="+cx8,+fxsr,+mmx,+sse,+sse2,+x87" "tune-cpu"="generic" }
attributes #4 = { nounwind allocsize(0) }
attributes #5 = { nounwind }
!llvm.module.flags = !{!0, !1, !2, !3, !4}
!llvm.ident = !{!5}
!0 = !{i32 1, !"wchar_size", i32 4}
!1 = !{i32 8, !"PIC Level", i32 2}
!2 = !{i32 7, !"PIE Level", i32 2}
!3 = !{i32 7, !"uwtable", i32 2}
!4 = !{i32 7, !"frame-pointer", i32 2}
!5 = !{!"Debian clang version 16.0.6 (15~deb12u1)"}
!6 = distinct !{!6, !7}
!7 = !{!"llvm.loop.mustprogress"}
!8 = distinct !{!8, !7}
!9 = distinct !{!9, !7}
!10 = distinct !{!10, !7}
!11 = distinct !{!11, !7}
!12 = distinct !{!12, !7}
!13 = distinct !{!13, !7}
!14 = distinct !{!14, !7}
!15 = distinct !{!15, !7}
!16 = distinct !{!16, !7}
