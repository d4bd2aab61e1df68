/** An object is cloned whose fields another thread writes. Races: ClonedBase.low, ClonedObject.high. */
class ClonedObject extends ClonedBase implements Cloneable {
    int high;
    volatile int flag;

    ClonedObject copied() throws CloneNotSupportedException {
        return (ClonedObject) clone();
    }

    public static void main(String[] args) throws CloneNotSupportedException {
        final ClonedObject shared = new ClonedObject();
        new Thread() {
            public void run() {
                shared.high = 1;
                shared.low = 2;
                shared.flag = 3;
            }
        }.start();
        ClonedObject own = shared.copied();
        own.high = 4;
        own.low = 5;
    }
}

class ClonedBase {
    static int none;
    int low;
}
