import java.util.ArrayList;
import java.util.Collections;
import java.util.Comparator;
import java.util.HashSet;
import java.util.LinkedHashMap;
import java.util.List;
import java.util.Map;
import java.util.Objects;
import java.util.Set;

/** Students with their grades: the same one twice is told, and they are sorted in two ways. */
class Grades {
    static final class Student implements Comparable<Student> {
        private final String name;
        private final int year;
        private final List<Integer> grades = new ArrayList<Integer>();

        Student(String name, int year) {
            this.name = Objects.requireNonNull(name, "a student has a name");
            this.year = year;
        }

        Student graded(Integer... more) {
            Collections.addAll(grades, more);
            return this;
        }

        int average() {
            if (grades.isEmpty()) {
                throw new IllegalStateException(this + " has no grades");
            }
            int sum = 0;
            for (int grade : grades) {
                sum += grade;
            }
            return sum / grades.size();
        }

        @Override
        public boolean equals(Object other) {
            if (this == other) {
                return true;
            }
            if (other == null || getClass() != other.getClass()) {
                return false;
            }
            Student student = (Student) other;
            return year == student.year && name.equals(student.name);
        }

        @Override
        public int hashCode() {
            return Objects.hash(name, year);
        }

        @Override
        public int compareTo(Student other) {
            return name.compareTo(other.name);
        }

        @Override
        public String toString() {
            return "Student{name='" + name + "', year=" + year + ", grades=" + grades + "}";
        }
    }

    public static void main(String[] args) {
        List<Student> all = new ArrayList<Student>();
        all.add(new Student("Noor", 2).graded(90, 85, 77));
        all.add(new Student("Ada", 1).graded(100, 95));
        all.add(new Student("Kim", 2).graded(60));
        all.add(new Student("Ada", 1).graded(20));
        all.add(new Student("Lev", 3));
        Set<Student> set = new HashSet<Student>();
        for (Student student : all) {
            if (!set.add(student)) {
                System.out.println("twice: " + student);
            }
        }
        List<Student> sorted = new ArrayList<Student>(set);
        Collections.sort(sorted);
        System.out.println(sorted);
        Map<Integer, List<String>> byYear = new LinkedHashMap<Integer, List<String>>();
        for (Student student : sorted) {
            List<String> names = byYear.get(student.year);
            if (names == null) {
                names = new ArrayList<String>();
                byYear.put(student.year, names);
            }
            names.add(student.name);
        }
        System.out.println(byYear);
        sorted.remove(new Student("Lev", 3));
        Collections.sort(sorted, Collections.reverseOrder(new Comparator<Student>() {
            @Override
            public int compare(Student a, Student b) {
                return Integer.compare(a.average(), b.average());
            }
        }));
        for (Student student : sorted) {
            System.out.println(student.name + " " + student.average());
        }
        try {
            new Student("Lev", 3).average();
        } catch (IllegalStateException none) {
            System.out.println(none.getMessage());
        }
        try {
            new Student(null, 1);
        } catch (NullPointerException none) {
            System.out.println(none.getMessage());
        }
    }
}
