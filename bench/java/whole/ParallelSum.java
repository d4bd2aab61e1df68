/** Four threads that each sum a quarter of an array. */
public class ParallelSum extends Thread {
    static final int LENGTH = 100000;
    static final int THREADS = 4;
    static final int ROUNDS = 10;

    final int[] numbers;
    final int begin;
    final int end;
    int sum;

    ParallelSum(int[] numbers, int begin, int end) {
        this.numbers = numbers;
        this.begin = begin;
        this.end = end;
    }

    public void run() {
        for (int round = 0; round < ROUNDS; round++) {
            for (int i = begin; i < end; i++) {
                sum += numbers[i];
            }
        }
    }

    public static void main(String[] words) throws InterruptedException {
        int[] numbers = new int[LENGTH];
        for (int i = 0; i < LENGTH; i++) {
            numbers[i] = i * 31 ^ i >> 3;
        }
        ParallelSum[] threads = new ParallelSum[THREADS];
        for (int i = 0; i < THREADS; i++) {
            threads[i] = new ParallelSum(numbers, LENGTH / THREADS * i, LENGTH / THREADS * (i + 1));
            threads[i].start();
        }
        int sum = 0;
        for (int i = 0; i < THREADS; i++) {
            threads[i].join();
            sum += threads[i].sum;
        }
        System.out.println(sum);
    }
}
