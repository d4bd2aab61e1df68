/** A machine with a stack, whose program sums the squares below a number. */
public class StackMachine {
    static final int PUSH = 0;
    static final int ADD = 1;
    static final int MULTIPLY = 2;
    static final int LOAD = 3;
    static final int STORE = 4;
    static final int SUBTRACT = 5;
    static final int JUMP_IF = 6;
    static final int END = 7;

    static int run(int[] code) {
        int[] stack = new int[16];
        int[] cells = new int[4];
        int top = 0;
        int at = 0;
        while (true) {
            switch (code[at++]) {
                case PUSH:
                    stack[top++] = code[at++];
                    break;
                case ADD:
                    top--;
                    stack[top - 1] += stack[top];
                    break;
                case MULTIPLY:
                    top--;
                    stack[top - 1] *= stack[top];
                    break;
                case LOAD:
                    stack[top++] = cells[code[at++]];
                    break;
                case STORE:
                    cells[code[at++]] = stack[--top];
                    break;
                case SUBTRACT:
                    top--;
                    stack[top - 1] -= stack[top];
                    break;
                case JUMP_IF:
                    at = stack[--top] != 0 ? code[at] : at + 1;
                    break;
                default:
                    return cells[1];
            }
        }
    }

    public static void main(String[] words) {
        int[] code = {
            PUSH, 60000, STORE, 0,
            LOAD, 0, LOAD, 0, MULTIPLY, LOAD, 1, ADD, STORE, 1,
            LOAD, 0, PUSH, 1, SUBTRACT, STORE, 0,
            LOAD, 0, JUMP_IF, 4, END
        };
        System.out.println(run(code));
    }
}
