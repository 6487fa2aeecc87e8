source_filename = "extremes.c"
target datalayout = "e-m:e-p270:32:32-p271:32:32-p272:64:64-i64:64-f80:128-n8:16:32:64-S128"
target triple = "x86_64-pc-linux-gnu"

%struct.part = type { ptr, ptr, i64, i64, i64 }

@numbers = internal global [512 x i64] zeroinitializer, align 16
@parts = internal global [2 x %struct.part] zeroinitializer, align 16

define dso_local i32 @main() #0 {
v.0:
  %v.1 = alloca i32, align 4
  %v.2 = alloca [2 x i64], align 16
  %v.3 = alloca i64, align 8
  %v.4 = alloca i64, align 8
  %v.5 = alloca i64, align 8
  %v.6 = alloca i64, align 8
  %v.7 = alloca i64, align 8
  %v.8 = alloca i32, align 4
  store i32 0, ptr %v.1, align 4
  store i64 0, ptr %v.3, align 8
  br label %v.9
v.9:
  %v.10 = load i64, ptr %v.3, align 8
  %v.11 = call i64 @pg_in_len()
  %v.12 = icmp slt i64 %v.10, %v.11
  br i1 %v.12, label %v.13, label %v.21
v.13:
  %v.14 = load i64, ptr %v.3, align 8
  %v.15 = call i64 @pg_in(i64 noundef %v.14)
  %v.16 = load i64, ptr %v.3, align 8
  %v.17 = getelementptr inbounds [512 x i64], ptr @numbers, i64 0, i64 %v.16
  store i64 %v.15, ptr %v.17, align 8
  br label %v.18
v.18:
  %v.19 = load i64, ptr %v.3, align 8
  %v.20 = add nsw i64 %v.19, 1
  store i64 %v.20, ptr %v.3, align 8
  br label %v.9, !llvm.loop !6
v.21:
  store i64 0, ptr %v.4, align 8
  br label %v.22
v.22:
  %v.23 = load i64, ptr %v.4, align 8
  %v.24 = icmp slt i64 %v.23, 2
  br i1 %v.24, label %v.25, label %v.57
v.25:
  %v.26 = call i64 @pg_in_len()
  %v.27 = load i64, ptr %v.4, align 8
  %v.28 = mul nsw i64 %v.26, %v.27
  %v.29 = sdiv i64 %v.28, 2
  %v.30 = getelementptr inbounds i64, ptr @numbers, i64 %v.29
  %v.31 = load i64, ptr %v.4, align 8
  %v.32 = getelementptr inbounds [2 x %struct.part], ptr @parts, i64 0, i64 %v.31
  %v.33 = getelementptr inbounds %struct.part, ptr %v.32, i32 0, i32 0
  store ptr %v.30, ptr %v.33, align 8
  %v.34 = call i64 @pg_in_len()
  %v.35 = load i64, ptr %v.4, align 8
  %v.36 = add nsw i64 %v.35, 1
  %v.37 = mul nsw i64 %v.34, %v.36
  %v.38 = sdiv i64 %v.37, 2
  %v.39 = getelementptr inbounds i64, ptr @numbers, i64 %v.38
  %v.40 = load i64, ptr %v.4, align 8
  %v.41 = getelementptr inbounds [2 x %struct.part], ptr @parts, i64 0, i64 %v.40
  %v.42 = getelementptr inbounds %struct.part, ptr %v.41, i32 0, i32 1
  store ptr %v.39, ptr %v.42, align 8
  %v.43 = load i64, ptr %v.4, align 8
  %v.44 = getelementptr inbounds [2 x %struct.part], ptr @parts, i64 0, i64 %v.43
  %v.45 = getelementptr inbounds %struct.part, ptr %v.44, i32 0, i32 2
  store i64 9223372036854775807, ptr %v.45, align 8
  %v.46 = load i64, ptr %v.4, align 8
  %v.47 = getelementptr inbounds [2 x %struct.part], ptr @parts, i64 0, i64 %v.46
  %v.48 = getelementptr inbounds %struct.part, ptr %v.47, i32 0, i32 3
  store i64 -9223372036854775808, ptr %v.48, align 8
  %v.49 = load i64, ptr %v.4, align 8
  %v.50 = getelementptr inbounds [2 x i64], ptr %v.2, i64 0, i64 %v.49
  %v.51 = load i64, ptr %v.4, align 8
  %v.52 = getelementptr inbounds [2 x %struct.part], ptr @parts, i64 0, i64 %v.51
  %v.53 = call i32 @pthread_create(ptr noundef %v.50, ptr noundef null, ptr noundef @look, ptr noundef %v.52) #3
  br label %v.54
v.54:
  %v.55 = load i64, ptr %v.4, align 8
  %v.56 = add nsw i64 %v.55, 1
  store i64 %v.56, ptr %v.4, align 8
  br label %v.22, !llvm.loop !8
v.57:
  store i64 9223372036854775807, ptr %v.5, align 8
  store i64 -9223372036854775808, ptr %v.6, align 8
  store i64 0, ptr %v.7, align 8
  store i32 0, ptr %v.8, align 4
  br label %v.58
v.58:
  %v.59 = load i32, ptr %v.8, align 4
  %v.60 = icmp slt i32 %v.59, 2
  br i1 %v.60, label %v.61, label %v.111
v.61:
  %v.62 = load i32, ptr %v.8, align 4
  %v.63 = sext i32 %v.62 to i64
  %v.64 = getelementptr inbounds [2 x i64], ptr %v.2, i64 0, i64 %v.63
  %v.65 = load i64, ptr %v.64, align 8
  %v.66 = call i32 @pthread_join(i64 noundef %v.65, ptr noundef null)
  %v.67 = load i32, ptr %v.8, align 4
  %v.68 = sext i32 %v.67 to i64
  %v.69 = getelementptr inbounds [2 x %struct.part], ptr @parts, i64 0, i64 %v.68
  %v.70 = getelementptr inbounds %struct.part, ptr %v.69, i32 0, i32 2
  %v.71 = load i64, ptr %v.70, align 8
  %v.72 = load i64, ptr %v.5, align 8
  %v.73 = icmp slt i64 %v.71, %v.72
  br i1 %v.73, label %v.74, label %v.80
v.74:
  %v.75 = load i32, ptr %v.8, align 4
  %v.76 = sext i32 %v.75 to i64
  %v.77 = getelementptr inbounds [2 x %struct.part], ptr @parts, i64 0, i64 %v.76
  %v.78 = getelementptr inbounds %struct.part, ptr %v.77, i32 0, i32 2
  %v.79 = load i64, ptr %v.78, align 8
  br label %v.82
v.80:
  %v.81 = load i64, ptr %v.5, align 8
  br label %v.82
v.82:
  %v.83 = phi i64 [ %v.79, %v.74 ], [ %v.81, %v.80 ]
  store i64 %v.83, ptr %v.5, align 8
  %v.84 = load i32, ptr %v.8, align 4
  %v.85 = sext i32 %v.84 to i64
  %v.86 = getelementptr inbounds [2 x %struct.part], ptr @parts, i64 0, i64 %v.85
  %v.87 = getelementptr inbounds %struct.part, ptr %v.86, i32 0, i32 3
  %v.88 = load i64, ptr %v.87, align 8
  %v.89 = load i64, ptr %v.6, align 8
  %v.90 = icmp sgt i64 %v.88, %v.89
  br i1 %v.90, label %v.91, label %v.97
v.91:
  %v.92 = load i32, ptr %v.8, align 4
  %v.93 = sext i32 %v.92 to i64
  %v.94 = getelementptr inbounds [2 x %struct.part], ptr @parts, i64 0, i64 %v.93
  %v.95 = getelementptr inbounds %struct.part, ptr %v.94, i32 0, i32 3
  %v.96 = load i64, ptr %v.95, align 8
  br label %v.99
v.97:
  %v.98 = load i64, ptr %v.6, align 8
  br label %v.99
v.99:
  %v.100 = phi i64 [ %v.96, %v.91 ], [ %v.98, %v.97 ]
  store i64 %v.100, ptr %v.6, align 8
  %v.101 = load i32, ptr %v.8, align 4
  %v.102 = sext i32 %v.101 to i64
  %v.103 = getelementptr inbounds [2 x %struct.part], ptr @parts, i64 0, i64 %v.102
  %v.104 = getelementptr inbounds %struct.part, ptr %v.103, i32 0, i32 4
  %v.105 = load i64, ptr %v.104, align 8
  %v.106 = load i64, ptr %v.7, align 8
  %v.107 = or i64 %v.106, %v.105
  store i64 %v.107, ptr %v.7, align 8
  br label %v.108
v.108:
  %v.109 = load i32, ptr %v.8, align 4
  %v.110 = add nsw i32 %v.109, 1
  store i32 %v.110, ptr %v.8, align 4
  br label %v.58, !llvm.loop !9
v.111:
  %v.112 = load i64, ptr %v.5, align 8
  call void @pg_out(i64 noundef %v.112)
  %v.113 = load i64, ptr %v.6, align 8
  call void @pg_out(i64 noundef %v.113)
  %v.114 = load i64, ptr %v.7, align 8
  call void @pg_out(i64 noundef %v.114)
  ret i32 0
}

define internal ptr @look(ptr noundef %v.0) #0 {
v.1:
  %v.2 = alloca ptr, align 8
  %v.3 = alloca ptr, align 8
  %v.4 = alloca ptr, align 8
  %v.5 = alloca ptr, align 8
  %v.6 = alloca ptr, align 8
  store ptr %v.0, ptr %v.3, align 8
  %v.7 = load ptr, ptr %v.3, align 8
  store ptr %v.7, ptr %v.4, align 8
  %v.8 = load ptr, ptr %v.4, align 8
  %v.9 = getelementptr inbounds %struct.part, ptr %v.8, i32 0, i32 0
  %v.10 = load ptr, ptr %v.9, align 8
  store ptr %v.10, ptr %v.5, align 8
  br label %v.11
v.11:
  %v.12 = load ptr, ptr %v.5, align 8
  %v.13 = load ptr, ptr %v.4, align 8
  %v.14 = getelementptr inbounds %struct.part, ptr %v.13, i32 0, i32 1
  %v.15 = load ptr, ptr %v.14, align 8
  %v.16 = icmp ult ptr %v.12, %v.15
  br i1 %v.16, label %v.17, label %v.45
v.17:
  %v.18 = load ptr, ptr %v.5, align 8
  %v.19 = load i64, ptr %v.18, align 8
  %v.20 = load ptr, ptr %v.4, align 8
  %v.21 = getelementptr inbounds %struct.part, ptr %v.20, i32 0, i32 2
  %v.22 = load i64, ptr %v.21, align 8
  %v.23 = icmp slt i64 %v.19, %v.22
  br i1 %v.23, label %v.24, label %v.29
v.24:
  %v.25 = load ptr, ptr %v.5, align 8
  %v.26 = load i64, ptr %v.25, align 8
  %v.27 = load ptr, ptr %v.4, align 8
  %v.28 = getelementptr inbounds %struct.part, ptr %v.27, i32 0, i32 2
  store i64 %v.26, ptr %v.28, align 8
  br label %v.29
v.29:
  %v.30 = load ptr, ptr %v.5, align 8
  %v.31 = load i64, ptr %v.30, align 8
  %v.32 = load ptr, ptr %v.4, align 8
  %v.33 = getelementptr inbounds %struct.part, ptr %v.32, i32 0, i32 3
  %v.34 = load i64, ptr %v.33, align 8
  %v.35 = icmp sgt i64 %v.31, %v.34
  br i1 %v.35, label %v.36, label %v.41
v.36:
  %v.37 = load ptr, ptr %v.5, align 8
  %v.38 = load i64, ptr %v.37, align 8
  %v.39 = load ptr, ptr %v.4, align 8
  %v.40 = getelementptr inbounds %struct.part, ptr %v.39, i32 0, i32 3
  store i64 %v.38, ptr %v.40, align 8
  br label %v.41
v.41:
  br label %v.42
v.42:
  %v.43 = load ptr, ptr %v.5, align 8
  %v.44 = getelementptr inbounds i64, ptr %v.43, i32 1
  store ptr %v.44, ptr %v.5, align 8
  br label %v.11, !llvm.loop !10
v.45:
  %v.46 = load ptr, ptr %v.4, align 8
  %v.47 = getelementptr inbounds %struct.part, ptr %v.46, i32 0, i32 0
  %v.48 = load ptr, ptr %v.47, align 8
  store ptr %v.48, ptr %v.6, align 8
  br label %v.49
v.49:
  %v.50 = load ptr, ptr %v.6, align 8
  %v.51 = load ptr, ptr %v.4, align 8
  %v.52 = getelementptr inbounds %struct.part, ptr %v.51, i32 0, i32 1
  %v.53 = load ptr, ptr %v.52, align 8
  %v.54 = icmp ult ptr %v.50, %v.53
  br i1 %v.54, label %v.55, label %v.66
v.55:
  %v.56 = load ptr, ptr %v.6, align 8
  %v.57 = load i64, ptr %v.56, align 8
  %v.58 = icmp eq i64 %v.57, 7
  br i1 %v.58, label %v.59, label %v.62
v.59:
  %v.60 = load ptr, ptr %v.4, align 8
  %v.61 = getelementptr inbounds %struct.part, ptr %v.60, i32 0, i32 4
  store i64 1, ptr %v.61, align 8
  store ptr null, ptr %v.2, align 8
  br label %v.67
v.62:
  br label %v.63
v.63:
  %v.64 = load ptr, ptr %v.6, align 8
  %v.65 = getelementptr inbounds i64, ptr %v.64, i32 1
  store ptr %v.65, ptr %v.6, align 8
  br label %v.49, !llvm.loop !11
v.66:
  store ptr null, ptr %v.2, align 8
  br label %v.67
v.67:
  %v.68 = load ptr, ptr %v.2, align 8
  ret ptr %v.68
}

declare i64 @pg_in_len() #1
declare i64 @pg_in(i64 noundef) #1
declare i32 @pthread_create(ptr noundef, ptr noundef, ptr noundef, ptr noundef) #2
declare i32 @pthread_join(i64 noundef, ptr noundef) #1
declare void @pg_out(i64 noundef) #1

attributes #0 = { noinline nounwind optnone uwtable "frame-pointer"="all" "min-legal-vector-width"="0" "no-trapping-math"="true" "stack-protector-buffer-size"="8" "target-cpu"="x86-64" "target-features"="+cx8,+fxsr,+mmx,+sse,+sse2,+x87" "tune-cpu"="generic" }
attributes #1 = { "frame-pointer"="all" "no-trapping-math"="true" "stack-protector-buffer-size"="8" "target-cpu"="x86-64" "target-features"="+cx8,+fxsr,+mmx,+sse,+sse2,+x87" "tune-cpu"="generic" }
attributes #2 = { nounwind "frame-pointer"="all" "no-trapping-math"="true" "stack-protector-buffer-size"="8" "target-cpu"="x86-64" "target-features"="+cx8,+fxsr,+mmx,+sse,+sse2,+x87" "tune-cpu"="generic" }
attributes #3 = { nounwind }
!llvm.module.flags = !{!0, !1, !2, !3, !4}
!llvm.ident = !{!5}
!0 = !{i32 1, !"wchar_size", i32 4}
!1 = !{i32 8, !"PIC Level", i32 2}
!2 = !{i32 7, !"PIE Level", i32 2}
!3 = !{i32 7, !"uwtable", i32 2}
!4 = !{i32 7, !"frame-pointer", i32 2}
!5 = !{!"Debian clang version 16.0.6 (15~deb12u1)"}
!6 = distinct !{!6, !7}
!7 = !{!"llvm.loop.mustprogress"}
!8 = distinct !{!8, !7}
!9 = distinct !{!9, !7}
!10 = distinct !{!10, !7}
!11 = distinct !{!11, !7}
