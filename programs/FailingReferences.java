/** Each exception that an instruction throws by itself, caught by its class or by one above. */
class FailingReferences {
    static int failed(int which) {
        int[] numbers = {1, 2};
        Object[] objects = new FailingReferences[1];
        FailingReferences none = null;
        try {
            switch (which) {
                case 0:
                    return numbers[2];
                case 1:
                    return numbers[-1] = 5;
                case 2:
                    objects[0] = numbers;
                    return 2;
                case 3:
                    return ((int[]) objects[0]).length;
                case 4:
                    numbers = new int[-1];
                    return 4;
                case 5:
                    return 5 % (numbers[0] - 1);
                case 6:
                    return ((FailingReferences) (Object) numbers).own;
                case 7:
                    return none.own;
                case 8:
                    synchronized (none) {
                        return 8;
                    }
                case 9:
                    throw (RuntimeException) (Object) none;
                default:
                    objects[0] = none;
                    return 10;
            }
        } catch (ArrayIndexOutOfBoundsException e) {
            return 100;
        } catch (ArrayStoreException e) {
            return 101;
        } catch (NegativeArraySizeException e) {
            return 102;
        } catch (ArithmeticException e) {
            return 103;
        } catch (ClassCastException e) {
            return 104;
        } catch (RuntimeException e) {
            return e instanceof NullPointerException ? 105 : 106;
        }
    }

    int own;

    public static void main(String[] args) {
        for (int i = 0; i <= 10; i++) {
            System.out.println(failed(i));
        }
    }
}
