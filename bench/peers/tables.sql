-- The tables of a load in sqlite3, with the columns of their files, each import in one transaction.
CREATE TABLE places (id INTEGER PRIMARY KEY, name TEXT, ascii TEXT, alternate TEXT, latitude TEXT, longitude TEXT, class TEXT, code TEXT, country TEXT,
    others TEXT, a1 TEXT, a2 TEXT, a3 TEXT, a4 TEXT, population INTEGER, elevation TEXT, dem TEXT, zone TEXT, modified TEXT);
CREATE TABLE alternates (id INTEGER PRIMARY KEY, place INTEGER, lang TEXT, text TEXT, preferred TEXT, short TEXT, colloquial TEXT, historic TEXT,
    since TEXT, until TEXT);
CREATE TABLE links (parent INTEGER, child INTEGER, type TEXT);
CREATE TABLE countries (code TEXT PRIMARY KEY, c2, c3, c4, c5, c6, c7, c8, c9, c10, c11, c12, c13, c14, c15, c16, place INTEGER, c18, c19) WITHOUT ROWID;
CREATE TABLE codes (code TEXT PRIMARY KEY, name TEXT, ascii TEXT, place INTEGER) WITHOUT ROWID;
.import allCountries.txt places
.import alternateNamesV2.txt alternates
.import hierarchy.txt links
.import countryInfo.txt countries
.import admin1CodesASCII.txt codes
.import admin2Codes.txt codes
