class 52 public+super FaceOfArray java/lang/Object
method static call ([I)V
limits 1 1
aload_0
invokeinterface interface Face own ()V
return
end
method public+static main ([Ljava/lang/String;)V
limits 0 1
return
end
