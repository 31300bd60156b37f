-- The judge of Haskell: the lexer of GHC, with the extensions that are arguments.
module Main (main) where

import Control.Monad.IO.Class (liftIO)
import Data.Maybe (fromMaybe)
import GHC (getSessionDynFlags, runGhc)
import GHC.Data.FastString (fsLit)
import GHC.Data.StringBuffer (stringToStringBuffer)
import GHC.Driver.Session (DynFlags, Language (Haskell2010), flagSpecFlag, flagSpecName, lang_set, xFlags, xopt_set)
import GHC.Parser.Lexer (P (..), ParseResult (..), Token (..), getMessages, lexer, mkPState)
import GHC.Types.Basic (FractionalLit (..), IntegralLit (..))
import GHC.Data.Bag (isEmptyBag)
import GHC.Types.SrcLoc (GenLocated (..), SrcSpan (..), mkRealSrcLoc, srcSpanEndCol)
import System.Environment (getArgs)
import System.Process (readProcess)

judge :: DynFlags -> String -> String
judge flags text = case unP (lexer False return) (mkPState flags (stringToStringBuffer text) (mkRealSrcLoc (fsLit "") 1 1)) of
  POk state (L (RealSrcSpan it _) token) -> case token of
    ITinteger (IL _ _ value) -> answer (show value)
    ITrational (FL _ _ value) -> answer (show (fromRational value :: Double))
    _ -> "-"
    where
      answer value = show (srcSpanEndCol it - 1) ++ " " ++ if isEmptyBag (snd (getMessages state flags)) then value else "-"
  _ -> "-"

main :: IO ()
main = do
  folder <- init <$> readProcess "ghc" ["--print-libdir"] ""
  runGhc (Just folder) $ do
    standard <- (`lang_set` Just Haskell2010) <$> getSessionDynFlags
    names <- liftIO getArgs
    let flags = foldl xopt_set standard [flagSpecFlag it | it <- xFlags, flagSpecName it `elem` names]
    liftIO $ interact (unlines . map (judge flags) . lines)
