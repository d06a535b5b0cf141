class 52 public+super FaceArrays java/lang/Object
method static call ([Ljava/lang/Object;)[LFace;
limits 1 1
aload_0
areturn
end
method public+static main ([Ljava/lang/String;)V
limits 0 1
return
end
