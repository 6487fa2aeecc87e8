source_filename = "matrix.c"
target datalayout = "e-m:e-p270:32:32-p271:32:32-p272:64:64-i64:64-f80:128-n8:16:32:64-S128"
target triple = "x86_64-pc-linux-gnu"

%union.pthread_barrier_t = type { i64, [24 x i8] }

@a = internal global [4 x [4 x i64]] zeroinitializer, align 16
@barrier = internal global %union.pthread_barrier_t zeroinitializer, align 8
@cube = internal global [4 x [4 x i64]] zeroinitializer, align 16
@square = internal global [4 x [4 x i64]] zeroinitializer, align 16

define dso_local i32 @main() #0 {
v.0:
  %v.1 = alloca i32, align 4
  %v.2 = alloca i32, align 4
  %v.3 = alloca [2 x i64], align 16
  %v.4 = alloca i64, align 8
  %v.5 = alloca i32, align 4
  %v.6 = alloca i32, align 4
  store i32 0, ptr %v.1, align 4
  store i32 0, ptr %v.2, align 4
  br label %v.7
v.7:
  %v.8 = load i32, ptr %v.2, align 4
  %v.9 = icmp slt i32 %v.8, 16
  br i1 %v.9, label %v.10, label %v.25
v.10:
  %v.11 = load i32, ptr %v.2, align 4
  %v.12 = sext i32 %v.11 to i64
  %v.13 = call i64 @pg_in(i64 noundef %v.12)
  %v.14 = load i32, ptr %v.2, align 4
  %v.15 = sdiv i32 %v.14, 4
  %v.16 = sext i32 %v.15 to i64
  %v.17 = getelementptr inbounds [4 x [4 x i64]], ptr @a, i64 0, i64 %v.16
  %v.18 = load i32, ptr %v.2, align 4
  %v.19 = srem i32 %v.18, 4
  %v.20 = sext i32 %v.19 to i64
  %v.21 = getelementptr inbounds [4 x i64], ptr %v.17, i64 0, i64 %v.20
  store i64 %v.13, ptr %v.21, align 8
  br label %v.22
v.22:
  %v.23 = load i32, ptr %v.2, align 4
  %v.24 = add nsw i32 %v.23, 1
  store i32 %v.24, ptr %v.2, align 4
  br label %v.7, !llvm.loop !6
v.25:
  %v.26 = call i32 @pthread_barrier_init(ptr noundef @barrier, ptr noundef null, i32 noundef 2) #3
  store i64 0, ptr %v.4, align 8
  br label %v.27
v.27:
  %v.28 = load i64, ptr %v.4, align 8
  %v.29 = icmp slt i64 %v.28, 2
  br i1 %v.29, label %v.30, label %v.39
v.30:
  %v.31 = load i64, ptr %v.4, align 8
  %v.32 = getelementptr inbounds [2 x i64], ptr %v.3, i64 0, i64 %v.31
  %v.33 = load i64, ptr %v.4, align 8
  %v.34 = inttoptr i64 %v.33 to ptr
  %v.35 = call i32 @pthread_create(ptr noundef %v.32, ptr noundef null, ptr noundef @worker, ptr noundef %v.34) #3
  br label %v.36
v.36:
  %v.37 = load i64, ptr %v.4, align 8
  %v.38 = add nsw i64 %v.37, 1
  store i64 %v.38, ptr %v.4, align 8
  br label %v.27, !llvm.loop !8
v.39:
  store i32 0, ptr %v.5, align 4
  br label %v.40
v.40:
  %v.41 = load i32, ptr %v.5, align 4
  %v.42 = icmp slt i32 %v.41, 2
  br i1 %v.42, label %v.43, label %v.52
v.43:
  %v.44 = load i32, ptr %v.5, align 4
  %v.45 = sext i32 %v.44 to i64
  %v.46 = getelementptr inbounds [2 x i64], ptr %v.3, i64 0, i64 %v.45
  %v.47 = load i64, ptr %v.46, align 8
  %v.48 = call i32 @pthread_join(i64 noundef %v.47, ptr noundef null)
  br label %v.49
v.49:
  %v.50 = load i32, ptr %v.5, align 4
  %v.51 = add nsw i32 %v.50, 1
  store i32 %v.51, ptr %v.5, align 4
  br label %v.40, !llvm.loop !9
v.52:
  store i32 0, ptr %v.6, align 4
  br label %v.53
v.53:
  %v.54 = load i32, ptr %v.6, align 4
  %v.55 = icmp slt i32 %v.54, 4
  br i1 %v.55, label %v.56, label %v.67
v.56:
  %v.57 = load i32, ptr %v.6, align 4
  %v.58 = sext i32 %v.57 to i64
  %v.59 = getelementptr inbounds [4 x [4 x i64]], ptr @cube, i64 0, i64 %v.58
  %v.60 = load i32, ptr %v.6, align 4
  %v.61 = sext i32 %v.60 to i64
  %v.62 = getelementptr inbounds [4 x i64], ptr %v.59, i64 0, i64 %v.61
  %v.63 = load i64, ptr %v.62, align 8
  call void @pg_out(i64 noundef %v.63)
  br label %v.64
v.64:
  %v.65 = load i32, ptr %v.6, align 4
  %v.66 = add nsw i32 %v.65, 1
  store i32 %v.66, ptr %v.6, align 4
  br label %v.53, !llvm.loop !10
v.67:
  ret i32 0
}

define internal ptr @worker(ptr noundef %v.0) #0 {
v.1:
  %v.2 = alloca ptr, align 8
  store ptr %v.0, ptr %v.2, align 8
  %v.3 = load ptr, ptr %v.2, align 8
  %v.4 = ptrtoint ptr %v.3 to i64
  %v.5 = trunc i64 %v.4 to i32
  call void @product(ptr noundef @square, ptr noundef @a, ptr noundef @a, i32 noundef %v.5)
  %v.6 = call i32 @pthread_barrier_wait(ptr noundef @barrier) #3
  %v.7 = load ptr, ptr %v.2, align 8
  %v.8 = ptrtoint ptr %v.7 to i64
  %v.9 = trunc i64 %v.8 to i32
  call void @product(ptr noundef @cube, ptr noundef @square, ptr noundef @a, i32 noundef %v.9)
  ret ptr null
}

define internal void @product(ptr noundef %v.0, ptr noundef %v.1, ptr noundef %v.2, i32 noundef %v.3) #0 {
v.4:
  %v.5 = alloca ptr, align 8
  %v.6 = alloca ptr, align 8
  %v.7 = alloca ptr, align 8
  %v.8 = alloca i32, align 4
  %v.9 = alloca i32, align 4
  %v.10 = alloca i32, align 4
  %v.11 = alloca i64, align 8
  %v.12 = alloca i32, align 4
  store ptr %v.0, ptr %v.5, align 8
  store ptr %v.1, ptr %v.6, align 8
  store ptr %v.2, ptr %v.7, align 8
  store i32 %v.3, ptr %v.8, align 4
  %v.13 = load i32, ptr %v.8, align 4
  store i32 %v.13, ptr %v.9, align 4
  br label %v.14
v.14:
  %v.15 = load i32, ptr %v.9, align 4
  %v.16 = icmp slt i32 %v.15, 4
  br i1 %v.16, label %v.17, label %v.64
v.17:
  store i32 0, ptr %v.10, align 4
  br label %v.18
v.18:
  %v.19 = load i32, ptr %v.10, align 4
  %v.20 = icmp slt i32 %v.19, 4
  br i1 %v.20, label %v.21, label %v.60
v.21:
  store i64 0, ptr %v.11, align 8
  store i32 0, ptr %v.12, align 4
  br label %v.22
v.22:
  %v.23 = load i32, ptr %v.12, align 4
  %v.24 = icmp slt i32 %v.23, 4
  br i1 %v.24, label %v.25, label %v.48
v.25:
  %v.26 = load ptr, ptr %v.6, align 8
  %v.27 = load i32, ptr %v.9, align 4
  %v.28 = sext i32 %v.27 to i64
  %v.29 = getelementptr inbounds [4 x i64], ptr %v.26, i64 %v.28
  %v.30 = load i32, ptr %v.12, align 4
  %v.31 = sext i32 %v.30 to i64
  %v.32 = getelementptr inbounds [4 x i64], ptr %v.29, i64 0, i64 %v.31
  %v.33 = load i64, ptr %v.32, align 8
  %v.34 = load ptr, ptr %v.7, align 8
  %v.35 = load i32, ptr %v.12, align 4
  %v.36 = sext i32 %v.35 to i64
  %v.37 = getelementptr inbounds [4 x i64], ptr %v.34, i64 %v.36
  %v.38 = load i32, ptr %v.10, align 4
  %v.39 = sext i32 %v.38 to i64
  %v.40 = getelementptr inbounds [4 x i64], ptr %v.37, i64 0, i64 %v.39
  %v.41 = load i64, ptr %v.40, align 8
  %v.42 = mul nsw i64 %v.33, %v.41
  %v.43 = load i64, ptr %v.11, align 8
  %v.44 = add nsw i64 %v.43, %v.42
  store i64 %v.44, ptr %v.11, align 8
  br label %v.45
v.45:
  %v.46 = load i32, ptr %v.12, align 4
  %v.47 = add nsw i32 %v.46, 1
  store i32 %v.47, ptr %v.12, align 4
  br label %v.22, !llvm.loop !11
v.48:
  %v.49 = load i64, ptr %v.11, align 8
  %v.50 = load ptr, ptr %v.5, align 8
  %v.51 = load i32, ptr %v.9, align 4
  %v.52 = sext i32 %v.51 to i64
  %v.53 = getelementptr inbounds [4 x i64], ptr %v.50, i64 %v.52
  %v.54 = load i32, ptr %v.10, align 4
  %v.55 = sext i32 %v.54 to i64
  %v.56 = getelementptr inbounds [4 x i64], ptr %v.53, i64 0, i64 %v.55
  store i64 %v.49, ptr %v.56, align 8
  br label %v.57
v.57:
  %v.58 = load i32, ptr %v.10, align 4
  %v.59 = add nsw i32 %v.58, 1
  store i32 %v.59, ptr %v.10, align 4
  br label %v.18, !llvm.loop !12
v.60:
  br label %v.61
v.61:
  %v.62 = load i32, ptr %v.9, align 4
  %v.63 = add nsw i32 %v.62, 2
  store i32 %v.63, ptr %v.9, align 4
  br label %v.14, !llvm.loop !13
v.64:
  ret void
}

declare i64 @pg_in(i64 noundef) #1
declare i32 @pthread_barrier_init(ptr noundef, ptr noundef, i32 noundef) #2
declare i32 @pthread_create(ptr noundef, ptr noundef, ptr noundef, ptr noundef) #2
declare i32 @pthread_join(i64 noundef, ptr noundef) #1
declare void @pg_out(i64 noundef) #1
declare i32 @pthread_barrier_wait(ptr noundef) #2

attributes #0 = { noinline nounwind optnone uwtable "frame-pointer"="all" "min-legal-vector-width"="0" "no-trapping-math"="true" "stack-protector-buffer-size"="8" "target-cpu"="x86-64" "target-features"="+cx8,+fxsr,+mmx,+sse,+sse2,+x87" "tune-cpu"="generic" }
attributes #1 = { "frame-pointer"="all" "no-trapping-math"="true" "stack-protector-buffer-size"="8" "target-cpu"="x86-64" "target-features"="+cx8,+fxsr,+mmx,+sse,+sse2,+x87" "tune-cpu"="generic" }
attributes #2 = { nounwind "frame-pointer"="all" "no-trapping-math"="true" "stack-protector-buffer-size"="8" "target-cpu"="x86-64" "target-features"="+cx8,+fxsr,+mmx,+sse,+sse2,+x87" "tune-cpu"="generic" }
attributes #3 = { nounwind }
!llvm.module.flags = !{!0, !1, !2, !3, !4}
!llvm.ident = !{!5}
!0 = !{i32 1, !"wchar_size", i32 4}
!1 = !{i32 8, !"PIC Level", i32 2}
!2 = !{i32 7, !"PIE Level", i32 2}
!3 = !{i32 7, !"uwtable", i32 2}
!4 = !{i32 7, !"frame-pointer", i32 2}
!5 = !{!"Debian clang version 16.0.6 (15~deb12u1)"}
!6 = distinct !{!6, !7}
!7 = !{!"llvm.loop.mustprogress"}
!8 = distinct !{!8, !7}
!9 = distinct !{!9, !7}
!10 = distinct !{!10, !7}
!11 = distinct !{!11, !7}
!12 = distinct !{!12, !7}
!13 = distinct !{!13, !7}
