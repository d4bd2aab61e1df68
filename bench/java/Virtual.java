/** Calls of a method that two classes have, in turn on an object of each. */
public class Virtual {
    int after(int n) {
        return n + 3;
    }

    public static void main(String[] words) {
        Virtual[] both = {new Virtual(), new Other()};
        int n = 0;
        for (int i = 0; i < 150000; i++) {
            n = both[i & 1].after(n);
        }
        System.out.println(n);
    }
}

class Other extends Virtual {
    int after(int n) {
        return n ^ 5;
    }
}
