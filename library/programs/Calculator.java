import java.util.ArrayDeque;
import java.util.Deque;

/** Reckons sums and products as they are written, and tells what is wrong with the others. */
class Calculator {
    private final Deque<Integer> values = new ArrayDeque<Integer>();
    private final Deque<Character> operators = new ArrayDeque<Character>();

    static int rank(char operator) {
        return operator == '(' ? 0 : operator == '+' || operator == '-' ? 1 : 2;
    }

    private void apply() {
        char operator = operators.pop();
        if (values.size() < 2) {
            throw new IllegalArgumentException("an operand of " + operator + " is missing");
        }
        int right = values.pop();
        int left = values.pop();
        switch (operator) {
            case '+':
                values.push(Math.addExact(left, right));
                break;
            case '-':
                values.push(Math.subtractExact(left, right));
                break;
            case '*':
                values.push(Math.multiplyExact(left, right));
                break;
            case '/':
                values.push(left / right);
                break;
            default:
                throw new IllegalArgumentException("a parenthesis isn't closed");
        }
    }

    int value(String text) {
        int at = 0;
        while (at < text.length()) {
            char next = text.charAt(at);
            if (Character.isDigit(next)) {
                int begin = at;
                while (at < text.length() && Character.isLetterOrDigit(text.charAt(at))) {
                    at++;
                }
                values.push(Integer.parseInt(text.substring(begin, at)));
                continue;
            }
            if (next == '(') {
                operators.push(next);
            } else if (next == ')') {
                while (operators.peek() != '(') {
                    apply();
                }
                operators.pop();
            } else if (next != ' ') {
                while (!operators.isEmpty() && rank(operators.peek()) >= rank(next)) {
                    apply();
                }
                operators.push(next);
            }
            at++;
        }
        while (!operators.isEmpty()) {
            apply();
        }
        return values.pop();
    }

    public static void main(String[] args) {
        String[] lines = {"1 + 2 * 3", "(1 + 2) * 3", "100 / 7 - 2 * (3 - 5)", "2 *", "8 / (4 - 4)", "3 * (2 + 1",
            "65536 * 65536", "12x + 1", "99999999999 - 1", "2 - 3 - 4"};
        for (String line : lines) {
            try {
                System.out.println(line + " = " + new Calculator().value(line));
            } catch (NumberFormatException wrong) {
                System.out.println(line + " has no number: " + wrong.getMessage());
            } catch (RuntimeException wrong) {
                System.out.println(line + " fails: " + wrong);
            }
        }
    }
}
