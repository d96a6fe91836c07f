"""Ten questions about the packages of a machine: each as a query, what is taken from its answer, and the same in SQL."""


class Question:
    def __init__(self, title, query, rows, sql):
        self.title, self.query, self.rows, self.sql = title, query, rows, sql


def one(row):
    """The values of one object, in the order of their names."""
    return [tuple(row[name] for name in sorted(row))]


def names(rows):
    return [(row["name"],) for row in rows]


def hops(row):
    """The packages two hops away, each behind the one that needs it."""
    return [(near["name"], far) for near in row["depends"] for far in near["depends"] or [None]]


QUESTIONS = [
    Question("What is curl?",
             {"id": "/deb/packages/curl", "type": "/deb/package", "name": None, "version": None, "size": None, "section": None,
              "maintainer": None, "summary": None}, one,
             "select '/deb/packages/curl', m.name, p.package, p.section, p.size, p.summary, '/deb/package', p.version"
             " from package p join maintainer m using (maintainer) where p.package = 'curl'"),
    Question("What does git need?",
             {"id": "/deb/packages/git", "type": "/deb/package", "depends": []}, lambda row: [(name,) for name in row["depends"]],
             "select b.package from package a join depends d on d.package = a.id join package b on b.id = d.needs"
             " where a.package = 'git' order by d.rowid limit 100"),
    Question("What needs zlib1g, by name?",
             {"id": "/deb/packages/zlib1g", "type": "/deb/package", "needed_by": [{"name": None, "sort": "name", "limit": 1000}]},
             lambda row: names(row["needed_by"]),
             "select b.package from package a join depends d on d.needs = a.id join package b on b.id = d.package"
             " where a.package = 'zlib1g' order by b.package limit 1000"),
    Question("What does curl need, and what do those need?",
             {"id": "/deb/packages/curl", "type": "/deb/package", "depends": [{"name": None, "depends": []}]}, hops,
             "select b.package, c.package from package a join depends d on d.package = a.id join package b on b.id = d.needs"
             " left join depends e on e.package = b.id left join package c on c.id = e.needs where a.package = 'curl' order by d.rowid, e.rowid"),
    Question("Which are the ten largest libraries?",
             [{"type": "/deb/package", "section": "libs", "name": None, "size": None, "sort": "-size", "limit": 10}],
             lambda rows: [(row["name"], row["size"]) for row in rows],
             "select package, size from package where section = 'libs' order by size desc, id limit 10"),
    Question("Who maintains more than five packages?",
             [{"type": "/deb/maintainer", "name": None, "packages": [{"id": None, "limit": 6}], "sort": "name", "limit": 1000}],
             lambda rows: [(row["name"],) for row in rows if len(row["packages"]) > 5],
             "select m.name from maintainer m join package p using (maintainer) group by m.maintainer having count(*) > 5 order by m.name"),
    Question("Which packages need both libssl3 and zlib1g?",
             [{"type": "/deb/package", "name": None, "a:depends": {"id": "/deb/packages/libssl3"},
               "b:depends": {"id": "/deb/packages/zlib1g"}}], names,
             "select p.package from package p where exists (select 1 from depends d join package q on q.id = d.needs where d.package = p.id"
             " and q.package = 'libssl3') and exists (select 1 from depends d join package q on q.id = d.needs where d.package = p.id"
             " and q.package = 'zlib1g') order by p.id limit 100"),
    Question("Whose summary has a word that begins with compress?",
             [{"type": "/deb/package", "name": None, "summary~=": "compress*"}], names,
             "select package from package where has_word(summary, 'compress') order by id limit 100"),
    Question("Which utilities does nothing need?",
             [{"type": "/deb/package", "section": "utils", "needed_by": {"id": None, "optional": "forbidden"}, "name": None, "sort": "name"}], names,
             "select package from package p where section = 'utils' and not exists (select 1 from depends d where d.needs = p.id)"
             " order by package limit 100"),
    # asked of two datelines, and compared
    Question("Whose version has changed since then?",
             [{"type": "/deb/package", "name": None, "version": None, "limit": 1000}],
             lambda rows: [(row["name"], row["version"]) for row in rows],
             "select p.package, b.version, p.version from package p join before b using (id) where b.version is not p.version order by p.package"),
]
