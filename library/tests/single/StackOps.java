import java.util.Stack;
import java.util.Vector;
import java.util.Enumeration;
import java.util.EmptyStackException;

/** Stack and Vector. */
class StackOps {
    static void print(int number) {
        System.out.println(number);
    }

    static void print(boolean is) {
        System.out.println(is ? 1 : 0);
    }

    public static void main(String[] args) throws Exception {
        Stack<Integer> stack = new Stack<Integer>();
        print(stack.push(1));
        stack.push(2);
        stack.push(3);
        print(stack.peek());
        print(stack.search(1));
        print(stack.search(9));
        print(stack.pop());
        print(stack.size());
        print(stack.get(0));
        print(stack.empty());
        stack.pop();
        stack.pop();
        try {
            stack.pop();
        } catch (EmptyStackException none) {
            print(-1);
        }
        Vector<Integer> vector = new Vector<Integer>();
        vector.addElement(4);
        vector.add(5);
        vector.insertElementAt(3, 0);
        print(vector.firstElement());
        print(vector.lastElement());
        print(vector.elementAt(1));
        print(vector.indexOf(5));
        for (Enumeration<Integer> each = vector.elements(); each.hasMoreElements();) {
            print(each.nextElement());
        }
        print(vector.removeElement(4));
        vector.removeElementAt(0);
        print(vector.size());
        try {
            vector.get(3);
        } catch (ArrayIndexOutOfBoundsException outside) {
            print(-2);
        }
        vector.removeAllElements();
        print(vector.isEmpty());
    }
}
