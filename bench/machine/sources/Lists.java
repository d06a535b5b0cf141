import java.util.Iterator;
public class Lists {
    static class List implements Iterable<Object> { static class Node { Object v; Node next; Node(Object v, Node next) { this.v = v; this.next = next; } } Node first; int size; void add(Object o) { first = new Node(o, first); size++; }
        public Iterator<Object> iterator() { return new Iterator<Object>() { Node n = first; public boolean hasNext() { return n != null; } public Object next() { if (n == null) throw new java.util.NoSuchElementException("end"); Object o = n.v; n = n.next; return o; } }; } }
    public static void main(String[] args) { List l = new List(); l.add("a"); l.add(2); l.add('c'); l.add(null); for (Object o : l) System.out.println(o); Iterator<Object> i = l.iterator(); try { i.remove(); } catch (UnsupportedOperationException e) { System.out.println("remove"); } while (i.hasNext()) i.next(); try { i.next(); } catch (java.util.NoSuchElementException e) { System.out.println(e.getMessage()); } System.out.println(l.size); }
}
