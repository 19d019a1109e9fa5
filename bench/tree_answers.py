"""What properties are after each change, as pairs in order."""
from cases import NoCase, spelled, unspelled


def pairs(props):
    return b'=' + b''.join(b' ' + spelled(key) + b'=' + spelled(value) for key, value in props.items())


def properties(case):
    """One answer for each row, so the lines are given whole."""
    props, found = {}, []
    for line in case.lines:
        found.append(line)
        if not line.startswith(b'> '):
            continue
        what, *words = line[2:].split()
        key, *value = [unspelled(word) for word in words]
        if what == b'set':
            props[key] = value[0]
        elif what == b'unset':
            found.append(b'= true' if key in props else b'= false')
            props.pop(key, None)
        elif what == b'value':
            found.append(b'= value ' + spelled(props[key]) if key in props else b'= None')
        else:
            raise NoCase('no change of properties', line)
        found.append(pairs(props))
    with_more = dict(props)
    with_more[b''] = b'further'
    same = list(with_more.items()) == list(props.items())
    return found + [b'= copy true, with a further pair ' + (b'true' if same else b'false'), pairs(props)]


WHOLE = {b'properties': properties}
