//! The library gives every known answer.

known::each_answer!(held::answer, held::LIBRARY);
