//! What the tests share: the independent implementation (`plain`), the library as C sees it (`recorder`), the one way in which tests
//! reach either (`calls`), the library's graphs, records and tables by value (`graphs`), the proved programs (`program`), and numbers to try them on (`numbers`, `random`).
pub mod calls;
pub mod graphs;
pub mod numbers;
pub mod plain;
pub mod program;
pub mod random;
pub mod recorder;
