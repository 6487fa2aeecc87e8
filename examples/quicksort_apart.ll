source_filename = "quicksort_apart.c"
target datalayout = "e-m:e-p270:32:32-p271:32:32-p272:64:64-i64:64-f80:128-n8:16:32:64-S128"
target triple = "x86_64-pc-linux-gnu"

%struct.half = type { i64, [512 x i64], [512 x i64], [512 x i64] }

@low = internal global %struct.half zeroinitializer, align 8
@high = internal global %struct.half zeroinitializer, align 8
@numbers = internal global [512 x i64] zeroinitializer, align 16

define dso_local i32 @main() #0 {
v.0:
  %v.1 = alloca i32, align 4
  %v.2 = alloca i64, align 8
  %v.3 = alloca i64, align 8
  %v.4 = alloca [2 x i64], align 16
  %v.5 = alloca i64, align 8
  store i32 0, ptr %v.1, align 4
  %v.6 = call i64 @pg_in_len()
  %v.7 = sdiv i64 %v.6, 2
  store i64 %v.7, ptr @low, align 8
  %v.8 = call i64 @pg_in_len()
  %v.9 = load i64, ptr @low, align 8
  %v.10 = sub nsw i64 %v.8, %v.9
  store i64 %v.10, ptr @high, align 8
  store i64 0, ptr %v.2, align 8
  br label %v.11
v.11:
  %v.12 = load i64, ptr %v.2, align 8
  %v.13 = load i64, ptr @low, align 8
  %v.14 = icmp slt i64 %v.12, %v.13
  br i1 %v.14, label %v.15, label %v.23
v.15:
  %v.16 = load i64, ptr %v.2, align 8
  %v.17 = call i64 @pg_in(i64 noundef %v.16)
  %v.18 = load i64, ptr %v.2, align 8
  %v.19 = getelementptr inbounds [512 x i64], ptr getelementptr inbounds (%struct.half, ptr @low, i32 0, i32 1), i64 0, i64 %v.18
  store i64 %v.17, ptr %v.19, align 8
  br label %v.20
v.20:
  %v.21 = load i64, ptr %v.2, align 8
  %v.22 = add nsw i64 %v.21, 1
  store i64 %v.22, ptr %v.2, align 8
  br label %v.11, !llvm.loop !6
v.23:
  store i64 0, ptr %v.3, align 8
  br label %v.24
v.24:
  %v.25 = load i64, ptr %v.3, align 8
  %v.26 = load i64, ptr @high, align 8
  %v.27 = icmp slt i64 %v.25, %v.26
  br i1 %v.27, label %v.28, label %v.38
v.28:
  %v.29 = load i64, ptr @low, align 8
  %v.30 = load i64, ptr %v.3, align 8
  %v.31 = add nsw i64 %v.29, %v.30
  %v.32 = call i64 @pg_in(i64 noundef %v.31)
  %v.33 = load i64, ptr %v.3, align 8
  %v.34 = getelementptr inbounds [512 x i64], ptr getelementptr inbounds (%struct.half, ptr @high, i32 0, i32 1), i64 0, i64 %v.33
  store i64 %v.32, ptr %v.34, align 8
  br label %v.35
v.35:
  %v.36 = load i64, ptr %v.3, align 8
  %v.37 = add nsw i64 %v.36, 1
  store i64 %v.37, ptr %v.3, align 8
  br label %v.24, !llvm.loop !8
v.38:
  %v.39 = getelementptr inbounds [2 x i64], ptr %v.4, i64 0, i64 0
  %v.40 = call i32 @pthread_create(ptr noundef %v.39, ptr noundef null, ptr noundef @sort_low, ptr noundef null) #3
  %v.41 = getelementptr inbounds [2 x i64], ptr %v.4, i64 0, i64 1
  %v.42 = call i32 @pthread_create(ptr noundef %v.41, ptr noundef null, ptr noundef @sort_high, ptr noundef null) #3
  %v.43 = getelementptr inbounds [2 x i64], ptr %v.4, i64 0, i64 0
  %v.44 = load i64, ptr %v.43, align 16
  %v.45 = call i32 @pthread_join(i64 noundef %v.44, ptr noundef null)
  %v.46 = getelementptr inbounds [2 x i64], ptr %v.4, i64 0, i64 1
  %v.47 = load i64, ptr %v.46, align 8
  %v.48 = call i32 @pthread_join(i64 noundef %v.47, ptr noundef null)
  call void @merge()
  store i64 0, ptr %v.5, align 8
  br label %v.49
v.49:
  %v.50 = load i64, ptr %v.5, align 8
  %v.51 = call i64 @pg_in_len()
  %v.52 = icmp slt i64 %v.50, %v.51
  br i1 %v.52, label %v.53, label %v.60
v.53:
  %v.54 = load i64, ptr %v.5, align 8
  %v.55 = getelementptr inbounds [512 x i64], ptr @numbers, i64 0, i64 %v.54
  %v.56 = load i64, ptr %v.55, align 8
  call void @pg_out(i64 noundef %v.56)
  br label %v.57
v.57:
  %v.58 = load i64, ptr %v.5, align 8
  %v.59 = add nsw i64 %v.58, 1
  store i64 %v.59, ptr %v.5, align 8
  br label %v.49, !llvm.loop !9
v.60:
  ret i32 0
}

define internal ptr @sort_low(ptr noundef %v.0) #0 {
v.1:
  %v.2 = alloca ptr, align 8
  store ptr %v.0, ptr %v.2, align 8
  call void @sort(ptr noundef @low)
  %v.3 = load ptr, ptr %v.2, align 8
  ret ptr %v.3
}

define internal ptr @sort_high(ptr noundef %v.0) #0 {
v.1:
  %v.2 = alloca ptr, align 8
  store ptr %v.0, ptr %v.2, align 8
  call void @sort(ptr noundef @high)
  %v.3 = load ptr, ptr %v.2, align 8
  ret ptr %v.3
}

define internal void @merge() #0 {
v.0:
  %v.1 = alloca i64, align 8
  %v.2 = alloca i64, align 8
  %v.3 = alloca i64, align 8
  store i64 0, ptr %v.1, align 8
  store i64 0, ptr %v.2, align 8
  store i64 0, ptr %v.3, align 8
  br label %v.4
v.4:
  %v.5 = load i64, ptr %v.3, align 8
  %v.6 = call i64 @pg_in_len()
  %v.7 = icmp slt i64 %v.5, %v.6
  br i1 %v.7, label %v.8, label %v.42
v.8:
  %v.9 = load i64, ptr %v.2, align 8
  %v.10 = load i64, ptr @high, align 8
  %v.11 = icmp eq i64 %v.9, %v.10
  br i1 %v.11, label %v.24, label %v.12
v.12:
  %v.13 = load i64, ptr %v.1, align 8
  %v.14 = load i64, ptr @low, align 8
  %v.15 = icmp slt i64 %v.13, %v.14
  br i1 %v.15, label %v.16, label %v.31
v.16:
  %v.17 = load i64, ptr %v.1, align 8
  %v.18 = getelementptr inbounds [512 x i64], ptr getelementptr inbounds (%struct.half, ptr @low, i32 0, i32 1), i64 0, i64 %v.17
  %v.19 = load i64, ptr %v.18, align 8
  %v.20 = load i64, ptr %v.2, align 8
  %v.21 = getelementptr inbounds [512 x i64], ptr getelementptr inbounds (%struct.half, ptr @high, i32 0, i32 1), i64 0, i64 %v.20
  %v.22 = load i64, ptr %v.21, align 8
  %v.23 = icmp sle i64 %v.19, %v.22
  br i1 %v.23, label %v.24, label %v.31
v.24:
  %v.25 = load i64, ptr %v.1, align 8
  %v.26 = add nsw i64 %v.25, 1
  store i64 %v.26, ptr %v.1, align 8
  %v.27 = getelementptr inbounds [512 x i64], ptr getelementptr inbounds (%struct.half, ptr @low, i32 0, i32 1), i64 0, i64 %v.25
  %v.28 = load i64, ptr %v.27, align 8
  %v.29 = load i64, ptr %v.3, align 8
  %v.30 = getelementptr inbounds [512 x i64], ptr @numbers, i64 0, i64 %v.29
  store i64 %v.28, ptr %v.30, align 8
  br label %v.38
v.31:
  %v.32 = load i64, ptr %v.2, align 8
  %v.33 = add nsw i64 %v.32, 1
  store i64 %v.33, ptr %v.2, align 8
  %v.34 = getelementptr inbounds [512 x i64], ptr getelementptr inbounds (%struct.half, ptr @high, i32 0, i32 1), i64 0, i64 %v.32
  %v.35 = load i64, ptr %v.34, align 8
  %v.36 = load i64, ptr %v.3, align 8
  %v.37 = getelementptr inbounds [512 x i64], ptr @numbers, i64 0, i64 %v.36
  store i64 %v.35, ptr %v.37, align 8
  br label %v.38
v.38:
  br label %v.39
v.39:
  %v.40 = load i64, ptr %v.3, align 8
  %v.41 = add nsw i64 %v.40, 1
  store i64 %v.41, ptr %v.3, align 8
  br label %v.4, !llvm.loop !10
v.42:
  ret void
}

define internal void @sort(ptr noundef %v.0) #0 {
v.1:
  %v.2 = alloca ptr, align 8
  %v.3 = alloca i64, align 8
  %v.4 = alloca i64, align 8
  %v.5 = alloca i64, align 8
  %v.6 = alloca i64, align 8
  %v.7 = alloca i64, align 8
  %v.8 = alloca i64, align 8
  %v.9 = alloca i64, align 8
  store ptr %v.0, ptr %v.2, align 8
  store i64 1, ptr %v.3, align 8
  %v.10 = load ptr, ptr %v.2, align 8
  %v.11 = getelementptr inbounds %struct.half, ptr %v.10, i32 0, i32 2
  %v.12 = getelementptr inbounds [512 x i64], ptr %v.11, i64 0, i64 0
  store i64 0, ptr %v.12, align 8
  %v.13 = load ptr, ptr %v.2, align 8
  %v.14 = getelementptr inbounds %struct.half, ptr %v.13, i32 0, i32 0
  %v.15 = load i64, ptr %v.14, align 8
  %v.16 = load ptr, ptr %v.2, align 8
  %v.17 = getelementptr inbounds %struct.half, ptr %v.16, i32 0, i32 3
  %v.18 = getelementptr inbounds [512 x i64], ptr %v.17, i64 0, i64 0
  store i64 %v.15, ptr %v.18, align 8
  br label %v.19
v.19:
  %v.20 = load i64, ptr %v.3, align 8
  %v.21 = icmp sgt i64 %v.20, 0
  br i1 %v.21, label %v.22, label %v.140
v.22:
  %v.23 = load ptr, ptr %v.2, align 8
  %v.24 = getelementptr inbounds %struct.half, ptr %v.23, i32 0, i32 2
  %v.25 = load i64, ptr %v.3, align 8
  %v.26 = add nsw i64 %v.25, -1
  store i64 %v.26, ptr %v.3, align 8
  %v.27 = getelementptr inbounds [512 x i64], ptr %v.24, i64 0, i64 %v.26
  %v.28 = load i64, ptr %v.27, align 8
  store i64 %v.28, ptr %v.4, align 8
  %v.29 = load ptr, ptr %v.2, align 8
  %v.30 = getelementptr inbounds %struct.half, ptr %v.29, i32 0, i32 3
  %v.31 = load i64, ptr %v.3, align 8
  %v.32 = getelementptr inbounds [512 x i64], ptr %v.30, i64 0, i64 %v.31
  %v.33 = load i64, ptr %v.32, align 8
  store i64 %v.33, ptr %v.5, align 8
  %v.34 = load i64, ptr %v.4, align 8
  store i64 %v.34, ptr %v.6, align 8
  %v.35 = load i64, ptr %v.5, align 8
  %v.36 = load i64, ptr %v.4, align 8
  %v.37 = sub nsw i64 %v.35, %v.36
  %v.38 = icmp slt i64 %v.37, 2
  br i1 %v.38, label %v.39, label %v.40
v.39:
  br label %v.19, !llvm.loop !11
v.40:
  %v.41 = load ptr, ptr %v.2, align 8
  %v.42 = getelementptr inbounds %struct.half, ptr %v.41, i32 0, i32 1
  %v.43 = load i64, ptr %v.4, align 8
  %v.44 = load i64, ptr %v.5, align 8
  %v.45 = add nsw i64 %v.43, %v.44
  %v.46 = sdiv i64 %v.45, 2
  %v.47 = getelementptr inbounds [512 x i64], ptr %v.42, i64 0, i64 %v.46
  %v.48 = load i64, ptr %v.47, align 8
  store i64 %v.48, ptr %v.7, align 8
  %v.49 = load ptr, ptr %v.2, align 8
  %v.50 = getelementptr inbounds %struct.half, ptr %v.49, i32 0, i32 1
  %v.51 = load i64, ptr %v.5, align 8
  %v.52 = sub nsw i64 %v.51, 1
  %v.53 = getelementptr inbounds [512 x i64], ptr %v.50, i64 0, i64 %v.52
  %v.54 = load i64, ptr %v.53, align 8
  %v.55 = load ptr, ptr %v.2, align 8
  %v.56 = getelementptr inbounds %struct.half, ptr %v.55, i32 0, i32 1
  %v.57 = load i64, ptr %v.4, align 8
  %v.58 = load i64, ptr %v.5, align 8
  %v.59 = add nsw i64 %v.57, %v.58
  %v.60 = sdiv i64 %v.59, 2
  %v.61 = getelementptr inbounds [512 x i64], ptr %v.56, i64 0, i64 %v.60
  store i64 %v.54, ptr %v.61, align 8
  %v.62 = load i64, ptr %v.4, align 8
  store i64 %v.62, ptr %v.8, align 8
  br label %v.63
v.63:
  %v.64 = load i64, ptr %v.8, align 8
  %v.65 = load i64, ptr %v.5, align 8
  %v.66 = sub nsw i64 %v.65, 1
  %v.67 = icmp slt i64 %v.64, %v.66
  br i1 %v.67, label %v.68, label %v.101
v.68:
  %v.69 = load ptr, ptr %v.2, align 8
  %v.70 = getelementptr inbounds %struct.half, ptr %v.69, i32 0, i32 1
  %v.71 = load i64, ptr %v.8, align 8
  %v.72 = getelementptr inbounds [512 x i64], ptr %v.70, i64 0, i64 %v.71
  %v.73 = load i64, ptr %v.72, align 8
  %v.74 = load i64, ptr %v.7, align 8
  %v.75 = icmp slt i64 %v.73, %v.74
  br i1 %v.75, label %v.76, label %v.97
v.76:
  %v.77 = load ptr, ptr %v.2, align 8
  %v.78 = getelementptr inbounds %struct.half, ptr %v.77, i32 0, i32 1
  %v.79 = load i64, ptr %v.8, align 8
  %v.80 = getelementptr inbounds [512 x i64], ptr %v.78, i64 0, i64 %v.79
  %v.81 = load i64, ptr %v.80, align 8
  store i64 %v.81, ptr %v.9, align 8
  %v.82 = load ptr, ptr %v.2, align 8
  %v.83 = getelementptr inbounds %struct.half, ptr %v.82, i32 0, i32 1
  %v.84 = load i64, ptr %v.6, align 8
  %v.85 = getelementptr inbounds [512 x i64], ptr %v.83, i64 0, i64 %v.84
  %v.86 = load i64, ptr %v.85, align 8
  %v.87 = load ptr, ptr %v.2, align 8
  %v.88 = getelementptr inbounds %struct.half, ptr %v.87, i32 0, i32 1
  %v.89 = load i64, ptr %v.8, align 8
  %v.90 = getelementptr inbounds [512 x i64], ptr %v.88, i64 0, i64 %v.89
  store i64 %v.86, ptr %v.90, align 8
  %v.91 = load i64, ptr %v.9, align 8
  %v.92 = load ptr, ptr %v.2, align 8
  %v.93 = getelementptr inbounds %struct.half, ptr %v.92, i32 0, i32 1
  %v.94 = load i64, ptr %v.6, align 8
  %v.95 = add nsw i64 %v.94, 1
  store i64 %v.95, ptr %v.6, align 8
  %v.96 = getelementptr inbounds [512 x i64], ptr %v.93, i64 0, i64 %v.94
  store i64 %v.91, ptr %v.96, align 8
  br label %v.97
v.97:
  br label %v.98
v.98:
  %v.99 = load i64, ptr %v.8, align 8
  %v.100 = add nsw i64 %v.99, 1
  store i64 %v.100, ptr %v.8, align 8
  br label %v.63, !llvm.loop !12
v.101:
  %v.102 = load ptr, ptr %v.2, align 8
  %v.103 = getelementptr inbounds %struct.half, ptr %v.102, i32 0, i32 1
  %v.104 = load i64, ptr %v.6, align 8
  %v.105 = getelementptr inbounds [512 x i64], ptr %v.103, i64 0, i64 %v.104
  %v.106 = load i64, ptr %v.105, align 8
  %v.107 = load ptr, ptr %v.2, align 8
  %v.108 = getelementptr inbounds %struct.half, ptr %v.107, i32 0, i32 1
  %v.109 = load i64, ptr %v.5, align 8
  %v.110 = sub nsw i64 %v.109, 1
  %v.111 = getelementptr inbounds [512 x i64], ptr %v.108, i64 0, i64 %v.110
  store i64 %v.106, ptr %v.111, align 8
  %v.112 = load i64, ptr %v.7, align 8
  %v.113 = load ptr, ptr %v.2, align 8
  %v.114 = getelementptr inbounds %struct.half, ptr %v.113, i32 0, i32 1
  %v.115 = load i64, ptr %v.6, align 8
  %v.116 = getelementptr inbounds [512 x i64], ptr %v.114, i64 0, i64 %v.115
  store i64 %v.112, ptr %v.116, align 8
  %v.117 = load i64, ptr %v.4, align 8
  %v.118 = load ptr, ptr %v.2, align 8
  %v.119 = getelementptr inbounds %struct.half, ptr %v.118, i32 0, i32 2
  %v.120 = load i64, ptr %v.3, align 8
  %v.121 = getelementptr inbounds [512 x i64], ptr %v.119, i64 0, i64 %v.120
  store i64 %v.117, ptr %v.121, align 8
  %v.122 = load i64, ptr %v.6, align 8
  %v.123 = load ptr, ptr %v.2, align 8
  %v.124 = getelementptr inbounds %struct.half, ptr %v.123, i32 0, i32 3
  %v.125 = load i64, ptr %v.3, align 8
  %v.126 = add nsw i64 %v.125, 1
  store i64 %v.126, ptr %v.3, align 8
  %v.127 = getelementptr inbounds [512 x i64], ptr %v.124, i64 0, i64 %v.125
  store i64 %v.122, ptr %v.127, align 8
  %v.128 = load i64, ptr %v.6, align 8
  %v.129 = add nsw i64 %v.128, 1
  %v.130 = load ptr, ptr %v.2, align 8
  %v.131 = getelementptr inbounds %struct.half, ptr %v.130, i32 0, i32 2
  %v.132 = load i64, ptr %v.3, align 8
  %v.133 = getelementptr inbounds [512 x i64], ptr %v.131, i64 0, i64 %v.132
  store i64 %v.129, ptr %v.133, align 8
  %v.134 = load i64, ptr %v.5, align 8
  %v.135 = load ptr, ptr %v.2, align 8
  %v.136 = getelementptr inbounds %struct.half, ptr %v.135, i32 0, i32 3
  %v.137 = load i64, ptr %v.3, align 8
  %v.138 = add nsw i64 %v.137, 1
  store i64 %v.138, ptr %v.3, align 8
  %v.139 = getelementptr inbounds [512 x i64], ptr %v.136, i64 0, i64 %v.137
  store i64 %v.134, ptr %v.139, align 8
  br label %v.19, !llvm.loop !11
v.140:
  ret void
}

declare i64 @pg_in_len() #1
declare i64 @pg_in(i64 noundef) #1
declare i32 @pthread_create(ptr noundef, ptr noundef, ptr noundef, ptr noundef) #2
declare i32 @pthread_join(i64 noundef, ptr noundef) #1
declare void @pg_out(i64 noundef) #1

attributes #0 = { noinline nounwind optnone uwtable "frame-pointer"="all" "min-legal-vector-width"="0" "no-trapping-math"="true" "stack-protector-buffer-size"="8" "target-cpu"="x86-64" "target-features"="+cx8,+fxsr,+mmx,+sse,+sse2,+x87" "tune-cpu"="generic" }
attributes #1 = { "frame-pointer"="all" "no-trapping-math"="true" "stack-protector-buffer-size"="8" "target-cpu"="x86-64" "target-features"="+cx8,+fxsr,+mmx,+sse,+sse2,+x87" "tune-cpu"="generic" }
attributes #2 = { nounwind "frame-pointer"="all" "no-trapping-math"="true" "stack-protector-buffer-size"="8" "target-cpu"="x86-64" "target-features"="+cx8,+fxsr,+mmx,+sse,+sse2,+x87" "tune-cpu"="generic" }
attributes #3 = { nounwind }
!llvm.module.flags = !{!0, !1, !2, !3, !4}
!llvm.ident = !{!5}
!0 = !{i32 1, !"wchar_size", i32 4}
!1 = !{i32 8, !"PIC Level", i32 2}
!2 = !{i32 7, !"PIE Level", i32 2}
!3 = !{i32 7, !"uwtable", i32 2}
!4 = !{i32 7, !"frame-pointer", i32 2}
!5 = !{!"Debian clang version 16.0.6 (15~deb12u1)"}
!6 = distinct !{!6, !7}
!7 = !{!"llvm.loop.mustprogress"}
!8 = distinct !{!8, !7}
!9 = distinct !{!9, !7}
!10 = distinct !{!10, !7}
!11 = distinct !{!11, !7}
!12 = distinct !{!12, !7}
