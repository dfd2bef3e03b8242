; The one instruction of x86 that tools/retarget.py replaces, as a function: OUT gets the bytes of BYTES
; that INDICES name.
target datalayout = "e-m:e-p270:32:32-p271:32:32-p272:64:64-i64:64-i128:128-f80:128-n8:16:32:64-S128"
target triple = "x86_64-unknown-linux-gnu"

define void @shuffle(ptr %bytes, ptr %indices, ptr %out) #0 {
  %a = load <16 x i8>, ptr %bytes, align 1
  %b = load <16 x i8>, ptr %indices, align 1
  %c = call <16 x i8> @llvm.x86.ssse3.pshuf.b.128(<16 x i8> %a, <16 x i8> %b)
  store <16 x i8> %c, ptr %out, align 1
  ret void
}

declare <16 x i8> @llvm.x86.ssse3.pshuf.b.128(<16 x i8>, <16 x i8>) #1

attributes #0 = { nounwind "target-cpu"="x86-64-v2" }
attributes #1 = { nocallback nofree nosync nounwind willreturn memory(none) }
