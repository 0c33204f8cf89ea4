"""Of the cases on standard input those that the untouched Rust is asked: it has no rule 2 at order zero."""
import sys


def texts(lines):
    """The lines of each case, with its order and its rule."""
    case, order, rule = [], None, None
    for line in lines:
        case.append(line)
        words = line.split(None, 3)
        if words[0] == 'spec':
            order = words[2]
        elif words[0] == 'rule':
            rule = words[1]
        elif words[0] == 'run':
            yield case, order, rule
            case, order, rule = [], None, None


if __name__ == '__main__':
    for case, order, rule in texts(sys.stdin):
        if (order, rule) != ('0', '2'):
            sys.stdout.writelines(case)
