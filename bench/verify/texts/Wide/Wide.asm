class 52 public+super Wide java/lang/Object
method public <init> ()V
limits 1 1
aload_0
invokespecial java/lang/Object <init> ()V
return
end
method static moves (J)J
limits 4 400
lload_0
wide lstore 300
bipush 7
wide istore 302
wide iinc 302 1000
wide lload 300
wide iload 302
i2l
ladd
lreturn
end
method public+static main ([Ljava/lang/String;)V
limits 0 1
return
end
