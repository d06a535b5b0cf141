import com.sun.jdi.*;
import com.sun.jdi.connect.*;
import com.sun.jdi.event.*;
import com.sun.jdi.request.*;
import java.io.*;
import java.util.*;

/** Runs a program instruction by instruction, and prints which instructions of its classes were executed: class, method, place, how often.
 *  Arguments: folder, class, file of the input, arguments. */
public class Executed {
    public static void main(String[] args) throws Exception {
        LaunchingConnector launch = Bootstrap.virtualMachineManager().defaultConnector();
        Map<String, Connector.Argument> with = launch.defaultArguments();
        StringBuilder main = new StringBuilder(args[1]);
        for (int i = 3; i < args.length; i++) main.append(' ').append(args[i]);
        with.get("main").setValue(main.toString());
        with.get("options").setValue("-cp " + args[0] + " -Xint -Dfile.encoding=UTF-8");
        VirtualMachine vm = launch.launch(with);
        Process process = vm.process();
        drain(process.getInputStream()); drain(process.getErrorStream());
        new Thread(() -> { try (OutputStream out = process.getOutputStream()) { out.write(java.nio.file.Files.readAllBytes(java.nio.file.Paths.get(args[2]))); } catch (IOException e) { } }).start();
        ClassPrepareRequest prepare = vm.eventRequestManager().createClassPrepareRequest();
        prepare.addClassFilter(args[1]); prepare.enable();
        Map<String, Integer> counts = new TreeMap<>();
        try {
            for (boolean going = true; going; ) {
                EventSet events = vm.eventQueue().remove();
                for (Event event : events) {
                    if (event instanceof ClassPrepareEvent) {
                        StepRequest step = vm.eventRequestManager().createStepRequest(((ClassPrepareEvent) event).thread(), StepRequest.STEP_MIN, StepRequest.STEP_INTO);
                        for (String other : new String[] { "java.*", "jdk.*", "sun.*", "javax.*", "com.sun.*" }) step.addClassExclusionFilter(other);
                        step.enable();
                    } else if (event instanceof StepEvent) {
                        Location at = ((StepEvent) event).location();
                        counts.merge(at.declaringType().name() + " " + at.method().name() + " " + at.method().signature() + " " + at.codeIndex(), 1, Integer::sum);
                    } else if (event instanceof VMDeathEvent || event instanceof VMDisconnectEvent) going = false;
                }
                events.resume();
            }
        } catch (VMDisconnectedException e) { }
        for (Map.Entry<String, Integer> entry : counts.entrySet()) System.out.println(entry.getKey() + " " + entry.getValue());
    }

    static void drain(InputStream in) { new Thread(() -> { try { byte[] some = new byte[4096]; while (in.read(some) >= 0); } catch (IOException e) { } }).start(); }
}
