class 52 public+super First java/lang/Object
method public+static main ([Ljava/lang/String;)V
limits 4 1
getstatic java/lang/System out Ljava/io/PrintStream;
sipush 1000
bipush -1
iadd
invokevirtual java/io/PrintStream println (I)V
getstatic java/lang/System out Ljava/io/PrintStream;
bipush 100
bipush 10
bipush 3
imul
isub
invokevirtual java/io/PrintStream println (I)V
return
end
